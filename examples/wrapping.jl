next(x::Int64) = x + 1
twice(x::Int64) = 2 * x
mixed(a::Int64, b::Int64, c::Int64) = a - (b - c) * 3 + -1

println(next(9_223_372_036_854_775_807))
println(twice(-9223372036854775808))
println(mixed(10, 7, 2))
