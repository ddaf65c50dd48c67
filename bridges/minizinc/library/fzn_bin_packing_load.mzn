% The bins are numbered by the index set of their loads.
predicate cpsolve_bin_packing_load(array[int] of var int: load, int: first, array[int] of var int: bin,
                                   array[int] of int: w);
predicate cpsolve_bin_packing_load_imp(array[int] of var int: load, int: first, array[int] of var int: bin,
                                       array[int] of int: w, var bool: r);

predicate fzn_bin_packing_load(array[int] of var int: load, array[int] of var int: bin, array[int] of int: w) =
  cpsolve_bin_packing_load(array1d(load), min(index_set(load)), array1d(bin), array1d(w));
predicate fzn_bin_packing_load_imp(array[int] of var int: load, array[int] of var int: bin, array[int] of int: w,
                                   var bool: r) =
  cpsolve_bin_packing_load_imp(array1d(load), min(index_set(load)), array1d(bin), array1d(w), r);
