/* The graphs of the tests, built by the calls in the lent record. */
#ifndef GRAPHS_H
#define GRAPHS_H

#include "check.h"

/* The regions from one number on and below another, in a record that was empty. */
void regions(uint32_t from, uint32_t below);

/* Graph G of document 01, in any record. */
void put_g(region_graph *record);

/* Graph G; G7's two regions, connected both ways; G8's four connections; six regions with a tie that the front decides; the regions
   from 15 on, each connected to the next, as many as there can be connections. In each but G bundle 10 asks. */
void build_g(void);
void build_cycle(void);
void build_diamond(void);
void build_tie(const uint8_t *ends);
void build_chain(void);

/* Bundles 1000 and up in a region, as many as are asked for. */
void fill_bundles(uint32_t region, uint32_t count);

/* Each of the last 16 regions connected to the next three, the first regions coming after the last: 48 connections. */
void fill_connections(void);

#endif
