# Five jobs that want to make one file: the first that ends does, and the others leave a note.
job j0
tx
x_create place -> f
require
x_write_seq f "made by 0"
commit
tx
x_open place -> f
x_read f 99 -> d
x_create note0 -> g
x_write_seq g $d
commit
end
job j1
tx
x_create place -> f
require
x_write_seq f "made by 1"
commit
tx
x_open place -> f
x_read f 99 -> d
x_create note1 -> g
x_write_seq g $d
commit
end
job j2
tx
x_create place -> f
require
x_write_seq f "made by 2"
commit
tx
x_open place -> f
x_read f 99 -> d
x_create note2 -> g
x_write_seq g $d
commit
end
job j3
tx
x_create place -> f
require
x_write_seq f "made by 3"
commit
tx
x_open place -> f
x_read f 99 -> d
x_create note3 -> g
x_write_seq g $d
commit
end
job j4
tx
x_create place -> f
require
x_write_seq f "made by 4"
commit
tx
x_open place -> f
x_read f 99 -> d
x_create note4 -> g
x_write_seq g $d
commit
end
