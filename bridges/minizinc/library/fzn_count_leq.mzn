predicate fzn_count_leq(array[int] of var int: x, var int: y, var int: c);
predicate fzn_count_leq_imp(array[int] of var int: x, var int: y, var int: c, var bool: r);
