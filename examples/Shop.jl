# A package: functions of whole numbers, and constants, which are computed once.
module Shop
price(count::Int64) = count * 25 + 40
const SMALLEST = price(1)
end
