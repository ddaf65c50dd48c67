predicate fzn_count_gt(array[int] of var int: x, var int: y, var int: c);
predicate fzn_count_gt_imp(array[int] of var int: x, var int: y, var int: c, var bool: r);
