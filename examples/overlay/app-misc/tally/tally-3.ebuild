# Copyright 2026 the egencache authors
# Distributed under the terms of the MIT License

EAPI=8

DESCRIPTION="Counts the lines of text files by the kind of their content"
HOMEPAGE="https://tally.example.org/"
SRC_URI="https://tally.example.org/releases/tally-3.tar.gz"

LICENSE="MIT"
SLOT="0"
KEYWORDS="~amd64 ~arm64"
IUSE="doc +unicode"

# The tables of Unicode are read when the program is built.
DEPEND="unicode? ( app-misc/lantern )"
RDEPEND="net-misc/ferry"
BDEPEND="doc? ( >=app-misc/lantern-2 )"
