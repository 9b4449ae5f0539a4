# A script that uses it. Names of a package stand behind its own.
using Shop
println(Shop.SMALLEST)
println(Shop.price(3))
