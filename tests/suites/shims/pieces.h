/* Cuts a program that is too long into pieces that come to the same, one behind the other.
 *
 * A cut is where control comes to from in front alone, and where R0 alone is read later. Programs
 * with memory, helpers or a way back are not cut. */
#pragma once

#define ANY_REGISTER (-1)
#define R0_ALONE 1

/* The registers that an instruction reads, a bit each. */
static int reads(const struct bpf_insn *insn)
{
	int dst = 1 << insn->dst_reg;
	int second = BPF_SRC(insn->code) == BPF_X ? 1 << insn->src_reg : 0;

	switch (BPF_CLASS(insn->code)) {
	case BPF_ALU:
	case BPF_ALU64:
		if (BPF_OP(insn->code) == BPF_END || BPF_OP(insn->code) == BPF_NEG)
			return dst;
		return BPF_OP(insn->code) == BPF_MOV ? second : dst | second;
	case BPF_JMP:
	case BPF_JMP32:
		if (BPF_OP(insn->code) == BPF_JA)
			return 0;
		if (BPF_OP(insn->code) == BPF_EXIT)
			return R0_ALONE;
		return BPF_OP(insn->code) == BPF_CALL ? ANY_REGISTER : dst | second;
	}
	return insn->code == (BPF_LD | BPF_IMM | BPF_DW) && !insn->src_reg ? 0 : ANY_REGISTER;
}

static bool is_jump(const struct bpf_insn *insn)
{
	int class = BPF_CLASS(insn->code);

	return (class == BPF_JMP || class == BPF_JMP32) && BPF_OP(insn->code) != BPF_EXIT;
}

/* The slot behind an instruction that goes on, or -1. */
static int slot_behind(const struct bpf_insn *insn, int slot)
{
	bool stays = is_jump(insn) && BPF_OP(insn->code) == BPF_JA;

	if (stays || insn->code == (BPF_JMP | BPF_EXIT))
		return -1;
	return slot + 1 + (insn->code == (BPF_LD | BPF_IMM | BPF_DW));
}

/* Marks slots that a jump or a wide load from in front leads past. False where a way leads back. */
static bool mark_crossed(const struct bpf_insn *code, int length, bool *crossed)
{
	int furthest = 0;

	for (int slot = 0; slot < length; slot++) {
		int behind = slot_behind(&code[slot], slot);
		bool is_wide = behind == slot + 2;
		int target = is_jump(&code[slot]) ? slot + 1 + code[slot].off : slot;

		crossed[slot] = furthest > slot;
		if (target < slot || target > length)
			return false;
		furthest = max(furthest, max(target, behind));
		if (is_wide && slot + 1 < length)
			crossed[++slot] = true;
	}
	return true;
}

/* The registers that are read from each slot on. False where they can't be told. */
static bool find_live(const struct bpf_insn *code, int length, int *live)
{
	live[length] = 0;
	for (int slot = length - 1; slot >= 0; slot--) {
		const struct bpf_insn *insn = &code[slot];
		int read = reads(insn), behind = slot_behind(insn, slot), after = 0;

		/* the second slot of a wide load has no opcode, and is passed over */
		live[slot] = 0;
		if (!insn->code)
			continue;
		if (read == ANY_REGISTER || behind > length)
			return false;
		if (behind >= 0)
			after |= live[behind];
		if (is_jump(insn))
			after |= live[slot + 1 + insn->off];
		else if (insn->code != (BPF_JMP | BPF_EXIT))
			after &= ~(1 << insn->dst_reg);
		live[slot] = read | after;
	}
	return true;
}

/* How many pieces of at most so many slots there are, and where each ends, or 0. */
static int cut(const struct bpf_insn *code, int length, int limit, int *ends)
{
	bool *crossed = calloc(length + 1, sizeof(*crossed));
	int *live = calloc(length + 1, sizeof(*live));
	int count = 0, start = 0, place = 0;

	if (mark_crossed(code, length, crossed) && find_live(code, length, live)) {
		for (int slot = 1; slot <= length && slot - start <= limit; slot++) {
			if (slot == length || (!crossed[slot] && !(live[slot] & ~R0_ALONE)))
				place = slot;
			if (slot - start == limit || slot == length) {
				if (place == start)
					break;
				ends[count++] = place;
				slot = start = place;
			}
		}
	}
	free(crossed);
	free(live);
	return start == length ? count : 0;
}
