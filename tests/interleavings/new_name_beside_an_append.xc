# One job makes a file and gives it a name at its end; the other appends to what it finds under that name, and reads.
file log "0"
job making
tx
x_create new -> f
x_write_seq f "1"
x_rename new place
commit
end
job appending
tx
x_open place -> f
x_write_seq f "2"
x_open log -> g
x_write_seq g "3"
commit
tx
x_open place -> f
x_read f 9 -> d
commit
end
