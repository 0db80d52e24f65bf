// The map of the card under test as a bitmap of libext2fs, where 1 is taken.
#ifndef BENCH_BITMAP_H
#define BENCH_BITMAP_H

#include <ext2fs/ext2fs.h>

#include "aged.h"

static ext2_filsys filesystem;
static ext2fs_block_bitmap bitmap;

static void make_bitmap(void) {
    struct ext2_super_block parameters = {0};
    ext2fs_blocks_count_set(&parameters, n);
    parameters.s_log_block_size = 2;
    parameters.s_log_cluster_size = 2;
    parameters.s_rev_level = 1;
    if (filesystem != NULL) {
        ext2fs_free_block_bitmap(bitmap);
        ext2fs_free(filesystem);
    }
    if (ext2fs_initialize("target/bench/filesystem", EXT2_FLAG_64BITS | EXT2_FLAG_RW, &parameters, unix_io_manager,
                          &filesystem) != 0)
        give_up("libext2fs makes no file system");
    filesystem->default_bitmap_type = EXT2FS_BMAP64_BITARRAY;
    if (ext2fs_allocate_block_bitmap(filesystem, "map", &bitmap) != 0) give_up("libext2fs makes no bitmap");
    for (uint32_t b = 0; b < n; b++)
        if (!is_free(map, b)) ext2fs_mark_block_bitmap2(bitmap, b);
}

static void age_both(uint32_t blocks, struct kind kind) {
    age(blocks, kind);
    make_bitmap();
}

#endif
