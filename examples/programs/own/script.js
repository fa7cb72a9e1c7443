function fib(n) { return n < 2 ? n : fib(n-1) + fib(n-2); }
print("fib", fib(9));
var a = []; for (var i = 0; i < 60; i++) a.push((i * 7919) % 503); a.sort(function(x, y) { return x - y; }); print(a[0], a[30], a[59]);
print(JSON.stringify({a: [1, 2.5, "x", null, true], b: {c: 1e21, d: 0.1 + 0.2}}));
print(JSON.parse('{"k":[1,2,{"z":-0.5e-3}]}').k[2].z, "abc".replace(/b(.)/, "[$1]"), /(\d+)-(\d+)/.exec("x 12-34 y"));
try { null.x } catch (e) { print(e.name); }
print(1/3, 1e300*1e10, -1/0, 0/0, 5e-324, 123456789012345680000, (0.000001234).toString(), (255).toString(16), (1.005).toFixed(2), 12345.678.toExponential(3));
print(Math.sin(1), Math.pow(2, 0.5), Math.floor(-2.5), parseInt("0x1f"), parseFloat("3.25abc"), 7 >>> 1, -7 >>> 28, 1 << 31);
function C(x) { this.x = x } C.prototype.get = function() { return this.x * 2 }; print(new C(21).get(), [3,1,2].map(function(x) { return x * x }).join("-"));
print(new Date(86400000 * 365).toISOString(), encodeURIComponent("ä &="));
