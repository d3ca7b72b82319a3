# Inline sites with the annotations that clang does not emit: each of the thirteen opcodes, numbers of each width at the
# ends of their ranges, long forms of small numbers, both zeros of the signed ones, and no end or bytes after the end.
# Then line programs, with every way in which a record gets its offset and its length, or is refused.
# The operand of ChangeFile is small, since llvm-pdbutil 14 gives up a module if it is past the string table.

	.macro	open
	.short	2f - 1f
1:	.short	0x114d			# S_INLINESITE
	.long	0, 0			# parent and end, which the linker fills in
	.long	0x74			# inlinee: int, since there are no functions to name
	.endm

	.macro	close
	.p2align 2
2:	.short	2, 0x114e		# S_INLINESITE_END
	.endm

	.macro	site annotations:vararg
	open
	.byte	\annotations
	close
	.endm

	# An opcode with a number of each width, at both ends of its range.
	.macro	widths opcode
	site	\opcode, 0, \opcode, 1, \opcode, 0x7f
	site	\opcode, 0x80, 0, \opcode, 0x80, 0x80, \opcode, 0xbf, 0xff
	site	\opcode, 0xc0, 0, 0, 1, \opcode, 0xc0, 0, 0x40, 0, \opcode, 0xdf, 0xff, 0xff, 0xff
	.endm

	# Eight records, the last at the code offset 0xfffffff8, and annotations after them.
	.macro	over annotations:vararg
	open
	.rept	8
	.byte	3, 0xdf, 0xff, 0xff, 0xff
	.endr
	.byte	\annotations
	close
	.endm

	.text
proc:	ret

	.section .debug$S,"dr"
	.p2align 2
	.long	4			# the section's version
	.long	0xf1			# symbols
	.long	last - first
first:
	.short	2f - 1f
1:	.short	0x1110			# S_GPROC32
	.long	0, 0, 0, 1, 0, 0, 0
	.secrel32 proc
	.secidx	proc
	.byte	0
	.asciz	"proc"
	.p2align 2
2:
	widths	1			# CodeOffset
	widths	2			# ChangeCodeOffsetBase
	widths	3			# ChangeCodeOffset
	widths	4			# ChangeCodeLength
	site	5, 0, 5, 0x80, 0, 5, 0xc0, 0, 0, 1	# ChangeFile
	widths	6			# ChangeLineOffset
	widths	7			# ChangeLineEndDelta
	widths	8			# ChangeRangeKind
	widths	9			# ChangeColumnStart
	widths	10			# ChangeColumnEndDelta
	widths	11			# ChangeCodeOffsetAndLineOffset
	site	11, 0x0f, 11, 0x1f, 11, 0x2f, 11, 0x3f, 11, 0x72
	site	12, 0, 0, 12, 1, 0x7f, 12, 0xbf, 0xff, 0x80, 0x80	# ChangeCodeLengthAndCodeOffset
	site	12, 0xc0, 0, 1, 0, 0xc0, 0, 0, 2, 12, 3, 0xdf, 0xff, 0xff, 0xff
	widths	13			# ChangeColumnEnd
	site	0x80, 3, 0x80, 5, 0xc0, 0, 0, 6, 9, 0xc0, 0, 0, 12, 0x80, 0x80, 0xc0, 0, 0x40, 0	# opcodes in long form
	site	3, 5, 6, 7			# no room for an end
	site	3, 5, 0, 3, 5, 0xff, 0xff, 0xff	# bytes after the end
	site	0x80, 0, 3, 5			# the end in long form
	site	0				# nothing

	# Line programs. "Ahead" is what llvm-pdbutil's code offset is ahead of ours.
	site	1, 5, 3, 2			# 1 at code offset 0: not ahead
	site	3, 5, 1, 8, 3, 1		# 1 at 5: ahead by that
	site	3, 5, 4, 3, 1, 0, 4, 2, 1, 9, 3, 1	# 1 and 4: ahead by 5 and 5
	site	3, 5, 3, 2, 1, 9		# 1 without a record after it
	site	2, 5, 3, 2			# the first 2: not ahead
	site	3, 5, 2, 8, 3, 1		# after a record too
	site	2, 5, 3, 2, 2, 9, 3, 1		# the second 2: ahead by 5
	site	2, 5, 3, 2, 2, 9		# without a record after it
	site	2, 8, 3, 2, 1, 5, 3, 0, 2, 9, 11, 0x22, 4, 3, 12, 6, 1	# 1, 2 and 4
	site	3, 5, 4, 3, 3, 2		# 4: ahead by 3
	site	3, 5, 4, 0, 3, 2		# by 0
	site	3, 5, 3, 2, 4, 3		# without a record after it
	site	3, 5, 4, 3, 4, 7, 11, 0x22	# twice: the second length stays, and ahead by both
	site	12, 3, 5, 12, 4, 2, 3, 1	# 12: its own length stays, and nothing is ahead
	site	12, 3, 5, 4, 7, 3, 1		# unless 4 sets another
	site	3, 5, 8, 0, 4, 3, 3, 2		# whatever the kind is by then
	site	3, 5, 3, 0, 11, 0x20, 12, 0, 0	# lengths of 0
	site	1, 100, 12, 5, 0, 1, 0, 3, 0	# falls after 12
	site	3, 9, 4, 2, 1, 3, 3, 1		# falls after 4
	site	2, 9, 12, 4, 1, 2, 3, 3, 1	# falls with the base
	site	3, 9, 1, 3, 3, 1		# falls, and a length is due: refused
	site	2, 9, 3, 1, 2, 3, 3, 1		# with the base
	site	12, 2, 9, 3, 1, 1, 3, 12, 5, 2	# falls to 5 from 10
	site	4, 3				# 4 before any record: refused
	site	1, 5, 4, 3, 3, 2		# though one comes later
	site	2, 5, 4, 0			# and if the length is 0
	over	3, 7				# 0xffffffff
	over	3, 7, 3, 1			# more than 32 bits: refused
	over	12, 9, 8			# and if a length is set
	over	4, 1, 2, 7, 3, 0		# the base: 0xffffffff
	over	4, 1, 2, 8, 3, 0		# and one more: refused
	site	6, 3, 3, 5, 6, 6, 11, 0x51	# lines -1 and 0
	site	5, 8, 3, 5, 5, 1, 3, 2		# files
	site	7, 3, 3, 5, 7, 0, 3, 2		# line counts
	site	8, 0, 3, 5, 8, 1, 3, 2, 8, 2, 3, 1, 8, 0, 12, 4, 1	# kinds
	site	9, 4, 13, 9, 3, 5, 10, 5, 3, 2, 9, 0, 13, 0, 3, 1	# columns
	site	10, 3, 3, 5, 10, 6, 3, 2	# an end column below 0, and before it is set
	site	3, 5, 5, 8, 6, 4, 7, 3, 8, 0, 9, 4, 13, 9	# all of them after the record
	site	1, 5, 2, 6, 5, 8, 6, 4, 7, 3, 8, 0, 9, 4, 13, 9, 10, 3, 3, 7, 11, 0x25, 12, 8, 3, 4, 2	# each opcode
	.short	2, 6			# S_END
last:
	.p2align 2
