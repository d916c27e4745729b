# SPDX-License-Identifier: Apache-2.0
"""Hot folders: what arrives is claimed, made in a process of its own, and filed. docs/FARM.md has the states."""
