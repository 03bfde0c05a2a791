form(1).
true(isort([3],[3]), yes).
true(isort([1,3],[3,1]), no).
true(insert(1,[],[1]), yes).
true(insert(1,[3],[3,1]), no).
