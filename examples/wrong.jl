# The package binds no such name, which is known only once it is loaded.
using Shop
println(Shop.SMALLEST)
println(Shop.discount(3))
