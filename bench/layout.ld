/* Each side's code begins on a page of its own, the searches first. Under the emulator a jump to
   another page of code costs more than one within it: left to chance, where the linker puts a
   function would show in its time. */
SECTIONS
{
    .text.proved : ALIGN(4096)
    {
        *(.text.telegram*) *(.text.contact*) *(.text.abi*)
        *(.text.atc2_find) *(.text.atc2_judge) *(.text.atc2_next_contact) *(.text.atc2_*) *(.text.words*)
    }
    .text.plain : ALIGN(4096)
    {
        *(.text.plain_read_telegram) *(.text.plain_find) *(.text.plain_judge) *(.text.plain_next_contact) *(.text.plain_*)
    }
    .text.wide : ALIGN(4096)
    {
        *(.text.wide_find) *(.text.wide_judge) *(.text.wide_next_contact)
    }
}
INSERT AFTER .text;
