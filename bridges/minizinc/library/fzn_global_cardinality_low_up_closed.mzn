predicate fzn_global_cardinality_low_up_closed(array[int] of var int: x, array[int] of int: cover, array[int] of int: lbound,
                                       array[int] of int: ubound);
predicate fzn_global_cardinality_low_up_closed_imp(array[int] of var int: x, array[int] of int: cover,
                                           array[int] of int: lbound, array[int] of int: ubound, var bool: r);
