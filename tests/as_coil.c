/* The reference under the library's names: a stand-in for libcoil.a.
 *
 * With it the tests can be tried without the library, and can_fail.sh can lend compare a reference
 * with one slip in it (REFERENCE_SOURCE names the source with the slip).
 */
#define ref_check coil_check
#define ref_pack coil_pack
#define ref_unpack coil_unpack
#define ref_create coil_create
#define ref_open coil_open
#define ref_find coil_find
#define ref_fetch coil_fetch
#define ref_append coil_append
#define ref_append_all coil_append_all
#define ref_replace coil_replace
#define ref_salvage coil_salvage
/* of the reference alone */
#define ref_pack_before coil_pack_before
#define ref_pack_as coil_pack_as

#ifndef REFERENCE_SOURCE
#define REFERENCE_SOURCE "reference.c"
#endif
#include REFERENCE_SOURCE
