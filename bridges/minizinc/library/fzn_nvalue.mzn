predicate fzn_nvalue(var int: n, array[int] of var int: x);
predicate fzn_nvalue_imp(var int: n, array[int] of var int: x, var bool: r);
