# Copyright 2026 the egencache authors
# Distributed under the terms of the MIT License

EAPI=2
DESCRIPTION="Carries files between two hosts, a block at a time"
HOMEPAGE=https://ferry.example.org/
LICENSE=BSD
SLOT=0
KEYWORDS="amd64 x86"
IUSE=
DEPEND=">=app-misc/lantern-2"
