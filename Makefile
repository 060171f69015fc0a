# What a newcomer runs. Each target says what it does and how long it may take.

.PHONY: help demo lib test bench

help:
	@echo "make demo    prove and build the two programs, pack a sample map, list a sample exam (some minutes the first time)"
	@echo "make lib     prove and build libcoil.a for C (5 to 10 minutes the first time)"
	@echo "make test    the whole gate, the same as .ci/run (about 20 minutes on four cores the first time)"
	@echo "make bench   sizes and times beside other codecs (some minutes the first time)"

demo:
	@examples/demo

lib:
	@examples/lib

test:
	@echo "Proving everything, trying every wrong version, then the tests from outside. About 20 minutes on four cores the first time."
	@bash .ci/run

bench:
	@echo "Packing and unpacking the same inputs with this library and with others. Some minutes the first time."
	@bench/run
