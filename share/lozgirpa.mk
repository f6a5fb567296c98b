# lozgirpa.mk: rules for GNU make 4.3 or later that tangle webs. A Makefile includes it and has a line for each web:
#
#   include /path/to/lozgirpa/lozgirpa.mk
#
#   $(call web,roman.w,roman.c numeral.h numeral.c)
#
# web WEB,OUTPUTS,CHANGE,INPUTS,OPTIONS (all but the first two may be left out):
#
#   WEB      the web
#   OUTPUTS  the files that it makes, by the names that the web gives them, the main file first
#   CHANGE   the change file
#   INPUTS   the folder in which included files are looked up, if not that of the web
#   OPTIONS  one option word for ctangle, if not -bph
#
# A blank in a name has a backslash before it. Names are relative to the current folder. Outputs go to the folder
# WEB_FOLDER, if not to the current one. Other rules depend on them as on any file: `roman.o: numeral.h`.
#
# The target clean-webs removes all outputs, and the folder WEB_STAMPS. CTANGLE and WDEP name the programs.

WDEP ?= wdep
WEB_FOLDER ?= .
WEB_STAMPS ?= .webs

lozgirpa_goal := $(.DEFAULT_GOAL)
lozgirpa_script := $(dir $(lastword $(MAKEFILE_LIST)))tangle-web
lozgirpa_empty :=
lozgirpa_blank := $(lozgirpa_empty) $(lozgirpa_empty)
lozgirpa_equals := =
# Make takes these signs for something else.
lozgirpa_signs := * ? [ ] ~ ; | & ( ) % : $$ ` " \#

# Names whose blanks are `|`, from names whose blanks have a backslash
lozgirpa_names = $(subst \$(lozgirpa_blank),|,$(strip $1))
# Such names as they are, as words of a rule, and as words of the shell
lozgirpa_plain = $(subst |,$(lozgirpa_blank),$1)
lozgirpa_words = $(subst |,\$(lozgirpa_blank),$(subst =,$$(lozgirpa_equals),$1))
lozgirpa_quoted = $(foreach name,$1,'$(call lozgirpa_plain,$(subst ','\'',$(name)))')
lozgirpa_bad_signs = $(strip $(foreach sign,$(lozgirpa_signs) \,$(findstring $(sign),$(subst \$(lozgirpa_blank),,$1))))
lozgirpa_missing = $(strip $(foreach name,$1,$(if $(wildcard $(subst |,\$(lozgirpa_blank),$(name))),,$(name))))
# A path as one name. Different paths have different names.
lozgirpa_flat = $(subst |,-_,$(subst /,-.,$(subst -,--,$1)))
lozgirpa_is = $(and $(findstring x$1x,x$2x),$(findstring x$2x,x$1x))

web = $(if $(call lozgirpa_bad_signs,$1$2$3$4),$(error web $1: make cannot read $(call lozgirpa_bad_signs,$1$2$3$4) in names)) \
    $(eval lozgirpa_goal := $(.DEFAULT_GOAL)) \
    $(eval lozgirpa_folder := $(call lozgirpa_names,$(WEB_FOLDER))) \
    $(eval lozgirpa_web := $(call lozgirpa_names,$1)) \
    $(eval lozgirpa_outputs := $(call lozgirpa_names,$2)) \
    $(eval lozgirpa_change := $(call lozgirpa_names,$3)) \
    $(eval lozgirpa_inputs := $(call lozgirpa_names,$4)) \
    $(eval lozgirpa_options := $(or $(strip $5),-bph)) \
    $(eval lozgirpa_paths := $(addprefix $(filter-out ./,$(lozgirpa_folder)/),$(lozgirpa_outputs))) \
    $(eval lozgirpa_stamp := $(WEB_STAMPS)/$(call lozgirpa_flat,$(firstword $(lozgirpa_paths))).stamp) \
    $(eval lozgirpa_run := make $(lozgirpa_stamp) $(call lozgirpa_plain,$(lozgirpa_folder) $(lozgirpa_inputs) $(lozgirpa_options) \
$(lozgirpa_web) $(or $(lozgirpa_change),-) $(lozgirpa_outputs))) \
    $(eval $(lozgirpa_rules)) \
    $(eval .DEFAULT_GOAL := $(lozgirpa_goal))

# ctangle runs again if a file is missing, or if its words are others than in the stamp. Where an output has its old text
# and date, the empty recipe makes make look at the date again, so nothing is compiled.
define lozgirpa_rules
lozgirpa_paths_of_all += $(call lozgirpa_quoted,$(lozgirpa_paths))
$(lozgirpa_stamp): $(call lozgirpa_words,$(lozgirpa_web) $(lozgirpa_change))
$(if $(call lozgirpa_is,$(file <$(lozgirpa_stamp)),$(lozgirpa_run)),,$(lozgirpa_stamp): lozgirpa_always)
$(if $(call lozgirpa_missing,$(lozgirpa_stamp).d $(lozgirpa_paths)),$(lozgirpa_stamp): lozgirpa_always)
$(lozgirpa_stamp):
	@echo tangling $(call lozgirpa_quoted,$(lozgirpa_web))
	@CTANGLE='$$(CTANGLE)' WDEP='$$(WDEP)' sh '$(lozgirpa_script)' make $(lozgirpa_stamp) \
	    '$(call lozgirpa_plain,$(lozgirpa_folder))' '$(call lozgirpa_plain,$(lozgirpa_inputs))' '$(lozgirpa_options)' \
	    $(call lozgirpa_quoted,$(lozgirpa_web) $(or $(lozgirpa_change),-) $(lozgirpa_outputs))
$(call lozgirpa_words,$(lozgirpa_paths)): $(lozgirpa_stamp) ;
$(lozgirpa_stamp).d: ;
include $(wildcard $(lozgirpa_stamp).d)
endef

.PHONY: clean-webs lozgirpa_always
clean-webs:
	rm -rf $(lozgirpa_paths_of_all) '$(WEB_STAMPS)'

# The first target of the Makefile is the default goal, and none of these.
.DEFAULT_GOAL := $(lozgirpa_goal)
