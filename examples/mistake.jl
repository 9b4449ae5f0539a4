f(x::Int64) = x * 10
println(f(4)))
