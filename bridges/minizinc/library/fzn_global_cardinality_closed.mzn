predicate fzn_global_cardinality_closed(array[int] of var int: x, array[int] of int: cover, array[int] of var int: counts);
predicate fzn_global_cardinality_closed_imp(array[int] of var int: x, array[int] of int: cover,
                                    array[int] of var int: counts, var bool: r);
