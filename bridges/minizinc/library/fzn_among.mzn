predicate fzn_among(var int: n, array[int] of var int: x, set of int: v);
predicate fzn_among_imp(var int: n, array[int] of var int: x, set of int: v, var bool: r);
