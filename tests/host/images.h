/* Images of records, and archive files. */
#ifndef IMAGES_H
#define IMAGES_H

#include "check.h"

struct image {
    size_t length;
    uint8_t bytes[REGION_LONGEST_IMAGE];
};

/* The folder that load reads from. */
void set_examples(const char *folder);

/* An archive file of the examples; one that is missing or too long is a failed check and gives no bytes. */
struct image load(const char *name);

/* The file of version 3 of the graph of an older file, whose layout is right: every package has version 0, every entry of a package
   part runs from 0 to 65535. */
struct image as_version_3(struct image older);

/* The longest file of version 2: longest.archive with its region numbers raised by 48, and with every region. The longest image is
   that of the same graph. */
struct image longest_of_version_2(void);
struct image longest_image(void);

/* The image that the writer gives of a record. */
struct image image_of(const region_graph *record);

bool same_image(struct image a, struct image b);

/* Whether two records hold the same graph: each graph has one image. */
bool same_graph(const region_graph *a, const region_graph *b);

#endif
