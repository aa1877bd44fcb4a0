/* The tests, by subject. Each leaves nothing behind that the next one reads. */
#ifndef HOST_H
#define HOST_H

void test_record(void);
void test_reading(void);
void test_structs(void);
void test_words(void);
void test_lists(void);
void test_changes(void);
void test_refused_changes(void);
void test_regions(void);
void test_queries(void);
void test_resolve(void);
void test_offers(void);
void test_versions(void);
void test_isolation(void);
void test_archives(void);
void test_conversions(void);
void test_names(void);
void test_edges(void);
void test_threads(void);

#endif
