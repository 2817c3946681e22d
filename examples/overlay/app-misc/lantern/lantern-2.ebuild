# Copyright 2026 the egencache authors
# Distributed under the terms of the MIT License

EAPI="7"

DESCRIPTION="Shows a table of characters, page by page"
HOMEPAGE="https://lantern.example.org/ https://lantern.example.net/"
SRC_URI="https://lantern.example.org/lantern-2.tar.xz"
LICENSE="|| ( MIT BSD )"
SLOT="0/2"
KEYWORDS="amd64 ~riscv"
