# What clang does not emit, and what `symbolize` makes of it (odd.answers): procedures of the same code, or within another, or
# without lines, or with lines in two parts, or with a name that is no text; line records without a length, and within others;
# sites beside each other with the same code, sites with code that the site around them does not have, sites in a block;
# S_INLINESITE2; other files.
# Inlined functions are numbered by simple types, since there are no functions to name.

	.cv_file 1 "/odd.c"
	.cv_file 2 "/odd.h"

	.macro	subsection kind
	.p2align 2
	.long	\kind
	.long	9f - 8f
8:
	.endm

	.macro	ends
9:
	.endm

	.macro	procedure at, size, name
	.short	2f - 1f
1:	.short	0x1110			# S_GPROC32
	.long	0, 0, 0, \size, 0, 0, 0
	.secrel32 \at
	.secidx	\at
	.byte	0
	.asciz	"\name"
	.p2align 2
2:
	.endm

	.macro	close kind=6		# S_END
	.short	2, \kind
	.endm

	.macro	block
	.short	2f - 1f
1:	.short	0x1103			# S_BLOCK32
	.long	0, 0, 16
	.secrel32 sites
	.secidx	sites
	.asciz	""
	.p2align 2
2:
	.endm

	# A site stays open until `close 0x114e`.
	.macro	site inlinee, annotations:vararg
	.short	2f - 1f
1:	.short	0x114d			# S_INLINESITE
	.long	0, 0, \inlinee
	.byte	\annotations
	.p2align 2
2:
	.endm

	.macro	lines at, size, count, entries:vararg
	subsection 0xf2
	.secrel32 \at
	.secidx	\at
	.short	0
	.long	\size
	.long	0, \count, 12 + 8 * \count
	.long	\entries
	ends
	.endm

	.text
	.globl	start
start:
outer:	.skip	0x10, 0x90
within:	.skip	0x30, 0x90
bare:	.skip	0x20, 0x90
sites:	.skip	0x80, 0x90
last:	.skip	0x20, 0x90
split:	.skip	0x10, 0x90
more:	.skip	0x10, 0x90

	.section .debug$S,"dr"
	.p2align 2
	.long	4			# the section's version

	subsection 0xf1			# symbols
	procedure outer, 0x40, outer
	close
	procedure outer, 0x40, twin
	close
	procedure within, 8, within
	close
	procedure bare, 0x20, "bare\007\nname"
	close
	procedure sites, 0x80, sites
	# 0x10 to 0x18, without a length, since the next is of another kind; 0x18 to 0x20; and 0x28, without an end.
	site	0x74, 3, 0x10, 8, 0, 6, 4, 3, 8, 4, 8, 3, 8
	site	0x75, 3, 0x14, 4, 4	# 0x14 to 0x18
	close	0x114e
	block
	site	0x13, 3, 0x1c, 4, 2	# 0x1c to 0x1e
	close	0x114e
	site	0x75, 3, 0x1c, 4, 2	# the same code
	close	0x114e
	close
	site	0x13, 3, 0x28, 4, 4	# where the site around it has no code
	close	0x114e
	close	0x114e
	site	0x22, 12, 8, 0x30, 5, 8, 6, 3, 3, 8, 4, 8	# 0x30 to 0x38, and 0x38 to 0x40 in the other file, a line before
	close	0x114e
	site	0x23, 3, 0x34, 4, 0x10	# 0x34 to 0x44, part of it beside the site above
	close	0x114e
	# lld drops S_INLINESITE2, so the test makes it of this: 0x090b0c0d invocations, 0x48 to 0x50, and 0x50 to 0x58.
	site	0x12, 0xd, 0xc, 0xb, 9, 3, 0x48, 11, 0x28, 4, 8
	close	0x114e
	site	0x23, 12, 0x10, 0x58, 6, 4, 12, 4, 8	# 0x58 to 0x68, and within it 0x60 to 0x64
	close	0x114e
	close
	procedure last, 0x20, last
	site	0x77, 3, 0, 4, 0x20	# without a source line
	close	0x114e
	close
	procedure split, 0x20, split
	close
	ends

	lines	outer, 0x40, 4, 0, 10, 0x10, 11, 0x10, 12, 0x20, 13	# two lines at 0x10: the first has no code
	lines	sites, 0x70, 1, 0, 20	# its last bytes have no line
	lines	last, 0x20, 1, 0, 30
	lines	split, 0x10, 1, 0, 40	# in two parts
	lines	more, 0x10, 1, 0, 41

	subsection 0xf6			# inlined functions: number, file, line
	.long	0
	.long	0x74, 0, 100
	.long	0x75, 0, 200
	.long	0x13, 0, 300
	.long	0x22, 0, 400
	.long	0x23, 0, 500
	.long	0x12, 0, 600
	.long	0x74, 0, 900		# again: the first counts
	ends

	.p2align 2
	.cv_filechecksums
	.cv_stringtable
