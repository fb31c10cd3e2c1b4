# Cuts the packs of all parts that `ttw extract` or `ttw main extract` has left, a job for each part:
#
#   make -j 8 -f examples/parts.mk FROM=parts INTO=packs
#
# A part shares nothing with another, so the jobs may run at once and in any order. A pack that stands is replaced by an
# equal one. A part with a dot in its name is a piece of a code that was too long: no pack is cut from it, since it would
# lack the points of the other pieces.
FROM = parts
INTO = packs

parts := $(notdir $(wildcard $(FROM)/*))
whole := $(foreach part,$(parts),$(if $(findstring .,$(part)),,$(part)))

.PHONY: all $(whole)
all: $(whole)

# A status of 1 is a code that is refused: it is told, and the others are cut.
$(whole):
	@if [ -e $(FROM)/$@/changes1 ]; \
	then ttw pack $(FROM)/$@/changes1 $(FROM)/$@/changes2 --all --out $(INTO); \
	else ttw main pack $(FROM)/$@ --all --out $(INTO); \
	fi; [ $$? -le 1 ]
