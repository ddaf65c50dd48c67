predicate fzn_count_lt(array[int] of var int: x, var int: y, var int: c);
predicate fzn_count_lt_imp(array[int] of var int: x, var int: y, var int: c, var bool: r);
