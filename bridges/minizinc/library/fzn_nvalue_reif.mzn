predicate fzn_nvalue_reif(var int: n, array[int] of var int: x, var bool: b);
