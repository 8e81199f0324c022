# A folder, links and a named pipe are no files, whatever is asked of them.
job main
tx
x_open folder
x_open link
x_open dangling
x_open fifo
x_create folder
x_create dangling
x_rename link b
x_rename a link
x_unlink link
x_unlink folder
x_open a
commit
end
