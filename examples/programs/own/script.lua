-- recursion, strings, tables, closures, coroutines, errors, metatables, integers and floats
local function fib(n) if n < 2 then return n end return fib(n-1) + fib(n-2) end
print("fib", fib(12))
local t = {} for i = 1, 200 do t[i] = (i * 7919) % 503 end table.sort(t) print("sort", t[1], t[100], t[200])
print(("%5.2f|%-8s|%08x|%g"):format(3.14159, "left", 48879, 1e100))
local co = coroutine.wrap(function() for i = 1, 5 do coroutine.yield(i * i) end return "end" end)
print(co(), co(), co(), co(), co(), co())
print(pcall(error, {code = 1}), select(2, pcall(error, "msg", 0)))
print(pcall(function() local x = nil; return x.y end))
local s = 0.0 for i = 1, 200 do s = s + 1 / i end print("harmonic", s)
print(math.maxinteger, math.mininteger, 7 // 2, -7 // 2, 7 % -3, 2^53, 1e15, 0x7fffffffffffffff + 1)
print(("hello world"):gsub("o", "0"), ("key=value"):match("(%w+)=(%w+)"))
local mt = setmetatable({}, {__index = function(_, k) return k .. "!" end, __call = function(_, a) return a * 2 end})
print(mt.foo, mt(21), #("x"):rep(1000))
print(string.pack(">i4d", 7, 2.5):byte(1, -1))
local w = {} for word in ("the quick brown fox jumps over the lazy dog the end"):gmatch("%a+") do w[word] = (w[word] or 0) + 1 end print(w.the, w.fox)
print(load("return 1 + 2 * 3")(), tostring(1/0), tostring(-0.0), 10 // 0.0)
-- sieve and n-queens
local function sieve(n) local c, k = {}, 0 for i = 2, n do if not c[i] then k = k + 1 for j = i * i, n, i do c[j] = true end end end return k end
print("primes", sieve(600))
local function queens(n, row, cols, d1, d2) if row > n then return 1 end local k = 0
  for c = 1, n do if not cols[c] and not d1[row + c] and not d2[row - c + n] then cols[c], d1[row+c], d2[row-c+n] = true, true, true
    k = k + queens(n, row + 1, cols, d1, d2) cols[c], d1[row+c], d2[row-c+n] = nil, nil, nil end end return k end
print("queens", queens(4, 1, {}, {}, {}))
for i = 1, 5 do print(i, math.sin(i), math.sqrt(i), math.exp(i), i ^ 0.3) end
print(utf8.char(228, 8364), utf8.len("äöü"), table.concat({1, 2.5, "x"}, ","))
goto done
print("not reached")
::done:: print(collectgarbage("count") > 0)
