# Transactions that abort themselves where a call is refused: a fault of the body starts a way back, which no later fault meets
# unless it lasts.
# options: --undo-tries 16
file a "hello"
file b "world"
job main
tx
x_open a -> f
require
x_open b -> g
require
x_write_ovr f "HE"
require
x_write_ovr g "WO"
require
x_write_ovr f "LLO!"
require
commit
tx
x_open a -> f
x_read f 9 -> d
x_open b -> g
x_read g 9 -> e
commit
end
