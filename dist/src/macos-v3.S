/* SPDX-License-Identifier: MIT OR Apache-2.0
 * Dethrux 0.2.0 for C on macOS, for the architecture that this is assembled for.
 * packaging/assembly wrote it: do not edit it. */
#ifndef __aarch64__
	.include "macos-x86-64-v3.s"
#endif
