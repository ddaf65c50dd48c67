predicate fzn_count_geq(array[int] of var int: x, var int: y, var int: c);
predicate fzn_count_geq_imp(array[int] of var int: x, var int: y, var int: c, var bool: r);
