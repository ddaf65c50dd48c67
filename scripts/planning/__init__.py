"""Draws the plan that a response holds as an SVG. `scripts/plan` is its command.

`textproto` reads the text format, `model` the model and the response, `fit` tests the one against the other. `chart`,
`ring` and `boxes` each draw one kind of picture on a `canvas`, the first with the colours of `groups`. `page` puts them
together, and `command` reads the words. `test_plan` has the tests.
"""
