% The bins are numbered by the index set of their capacities.
predicate cpsolve_bin_packing_capa(array[int] of int: c, int: first, array[int] of var int: bin, array[int] of int: w);
predicate cpsolve_bin_packing_capa_imp(array[int] of int: c, int: first, array[int] of var int: bin, array[int] of int: w,
                                       var bool: r);

predicate fzn_bin_packing_capa(array[int] of int: c, array[int] of var int: bin, array[int] of int: w) =
  cpsolve_bin_packing_capa(array1d(c), min(index_set(c)), array1d(bin), array1d(w));
predicate fzn_bin_packing_capa_imp(array[int] of int: c, array[int] of var int: bin, array[int] of int: w, var bool: r) =
  cpsolve_bin_packing_capa_imp(array1d(c), min(index_set(c)), array1d(bin), array1d(w), r);
