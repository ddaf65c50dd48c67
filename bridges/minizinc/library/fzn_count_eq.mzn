% One literal for each pair of variable and value says whether the variable has the value; a count is a sum of these.
predicate fzn_count_eq(array[int] of var int: x, var int: y, var int: c);
predicate fzn_count_eq_imp(array[int] of var int: x, var int: y, var int: c, var bool: r);
