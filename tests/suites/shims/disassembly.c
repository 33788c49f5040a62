/* The kernel's disassembler, which is bpftool's, for Python. */
#include <stdarg.h>

#include "kernel.h"

#include "disasm.c"

struct page {
	char *text;
	size_t room, length;
};

static void put(void *kept, const char *form, ...)
{
	struct page *page = kept;
	va_list given;

	va_start(given, form);
	page->length += vsnprintf(page->text + page->length, page->room - page->length, form, given);
	va_end(given);
	if (page->length >= page->room)
		abort();
}

/* The lines of a program, as bpftool shows them without their slots. */
int suite_disassemble(const struct bpf_insn *code, int slots, char *text, size_t room)
{
	struct page page = {text, room, 0};
	const struct bpf_insn_cbs calls = {.cb_print = put, .private_data = &page};

	for (int slot = 0; slot < slots; slot++) {
		print_bpf_insn(&calls, &code[slot], true);
		if (code[slot].code == (BPF_LD | BPF_IMM | BPF_DW))
			slot++;
	}
	return page.length;
}
