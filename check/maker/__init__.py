# SPDX-License-Identifier: Apache-2.0
"""A maker of random cases: pages, jobs, words, set files and lists, broken ones among them."""
