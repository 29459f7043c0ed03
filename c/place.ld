/* Where the loops of the searches lie. The kit lays functions at multiples of 16, and a short loop that crosses a line of 64 bytes can take twice as long (docs/SPEED.md).
   Each function is moved within its section, code unchanged, by as much as was fastest: brute, shiftand and the first hit beside the archive of version 1.1, kmp and sunday beside that of version 1.4.1, both in one program;
   bm and hybrid beside the C engines; the bound list beside brute. By another name nothing is moved. A change of the source before such a loop moves it again: then `make bench` shows it, and these numbers are to be found anew. */
SECTIONS
{
  ".text.brute::search" 0 : { . = . + 40; *(".text.brute::search") }
  ".text.kmp::search" 0 : { . = . + 48; *(".text.kmp::search") }
  ".text.bm::search" 0 : { . = . + 8; *(".text.bm::search") }
  ".text.sunday::search" 0 : { . = . + 56; *(".text.sunday::search") }
  ".text.shiftand::search" 0 : { . = . + 48; *(".text.shiftand::search") }
  ".text.hybrid::search" 0 : { . = . + 22; *(".text.hybrid::search") }
  ".text.breakwarp_first" 0 : { . = . + 32; *(".text.breakwarp_first") }
  ".text.breakwarp_bound" 0 : { . = . + 32; *(".text.breakwarp_bound") }
}
