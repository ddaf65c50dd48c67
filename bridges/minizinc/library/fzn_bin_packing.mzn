predicate fzn_bin_packing(int: c, array[int] of var int: bin, array[int] of int: w);
predicate fzn_bin_packing_imp(int: c, array[int] of var int: bin, array[int] of int: w, var bool: r);
