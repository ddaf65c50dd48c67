predicate fzn_global_cardinality(array[int] of var int: x, array[int] of int: cover, array[int] of var int: counts);
predicate fzn_global_cardinality_imp(array[int] of var int: x, array[int] of int: cover,
                                    array[int] of var int: counts, var bool: r);
