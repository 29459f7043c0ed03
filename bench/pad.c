/* Puts PAD bytes before what is linked after it. An archive whose functions ask for a multiple of 16 is moved by them; the one that `make lib` makes asks
 * for 64 and is not, so that there four paddings are four runs of the same places.
 */
#define TEXT(x) #x
#define BYTES(x) TEXT(x)
#if PAD
__asm__(".text\n.skip " BYTES(PAD) "\n");
#endif
