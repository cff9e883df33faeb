/* Makes a program's syncs do nothing, once it is loaded before the C library (LD_PRELOAD). It is for
   tools/check_machines, which builds it: what a power cut then takes away has to be found missing. */
int fsync(int file) { return file < 0 ? -1 : 0; }
int fdatasync(int file) { return file < 0 ? -1 : 0; }
int syncfs(int file) { return file < 0 ? -1 : 0; }
int sync_file_range(int file, long long from, long long count, unsigned how) { return file < 0 ? -1 : 0; }
