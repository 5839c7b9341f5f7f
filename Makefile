# make demo: builds the programs and runs them on the practice sheet and on plans; make test: the gate.
.PHONY: demo test

demo:
	cd crates/checksheet && rt run -- data/practice.sheet
	cd crates/checksheet/data && ../out/checksheet --no-fail cut_short.sheet depth_gap.sheet wrong_target.sheet
	cd crates/tokens && rt run -- --word=on=17 --word=off=18 --limit=40 data/plan.txt
	cd crates/readplan && rt run -- data/practice.sheet data/on_off.txt

test:
	.ci/run
