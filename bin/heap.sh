# How the C library's allocator keeps memory for nfs3: source it before the program is started. A call of 65,536 bytes passes
# through several buffers that are freed with it. By default glibc gives such memory back to the system at once, and each next
# call takes it anew, a page fault for every 4,096 bytes; here it is kept. The greatest size of a process stays the same. What
# the environment sets already is left as it is. Other C libraries don't read these names.
export MALLOC_TRIM_THRESHOLD_="${MALLOC_TRIM_THRESHOLD_-268435456}"
export MALLOC_MMAP_THRESHOLD_="${MALLOC_MMAP_THRESHOLD_-33554432}"
export MALLOC_TOP_PAD_="${MALLOC_TOP_PAD_-16777216}"
