/*
 * Memory of the C library, taken from PostgreSQL.
 *
 * The linker replaces malloc, realloc and free of the library by the functions below (Makefile), so
 * that each set lives in the memory context that is current when it grows. A query that fails or is
 * cancelled thus frees its sets with its contexts. Nothing here raises an error, because the
 * library must not be left by a jump: it reports a failed allocation, and its caller raises it.
 */
#include "postgres.h"

#include "set.h"
#include "utils/memutils.h"

/* The library expects the alignment of malloc, which is more than that of PostgreSQL. */
#define ALIGNMENT 16

/* What lies before each block: where PostgreSQL's own block starts, and the size of this one. */
typedef struct BlockHead
{
	void	   *chunk;
	Size		size;
} BlockHead;

StaticAssertDecl(sizeof(BlockHead) <= ALIGNMENT, "the head of a block fits before it");

void	   *__wrap_malloc(Size size);
void	   *__wrap_realloc(void *block, Size size);
void		__wrap_free(void *block);

static BlockHead *
head_of(void *block)
{
	return (BlockHead *) ((char *) block - ALIGNMENT);
}

void *
__wrap_malloc(Size size)
{
	const Size	extra = 2 * ALIGNMENT;
	char	   *chunk;
	char	   *block;

	if (size > MaxAllocHugeSize - extra)
		return NULL;
	chunk = MemoryContextAllocExtended(CurrentMemoryContext, size + extra,
									   MCXT_ALLOC_NO_OOM | MCXT_ALLOC_HUGE);
	if (chunk == NULL)
		return NULL;
	block = (char *) TYPEALIGN(ALIGNMENT, chunk + ALIGNMENT);
	head_of(block)->chunk = chunk;
	head_of(block)->size = size;
	return block;
}

void
__wrap_free(void *block)
{
	if (block != NULL)
		pfree(head_of(block)->chunk);
}

void *
__wrap_realloc(void *block, Size size)
{
	void	   *moved = __wrap_malloc(size);

	if (moved == NULL || block == NULL)
		return moved;
	memcpy(moved, block, Min(size, head_of(block)->size));
	__wrap_free(block);
	return moved;
}

void
range_set_out_of_memory(void)
{
	ereport(ERROR,
			(errcode(ERRCODE_OUT_OF_MEMORY),
			 errmsg("out of memory"),
			 errdetail("Failed to allocate memory for a range set.")));
}
