predicate fzn_count_neq(array[int] of var int: x, var int: y, var int: c);
predicate fzn_count_neq_imp(array[int] of var int: x, var int: y, var int: c, var bool: r);
