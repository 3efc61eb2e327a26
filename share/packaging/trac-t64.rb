# Not tried. The place of the archive and its sum, of SHA256SUMS, are to be filled in.
# On macOS and ARM the module in trac.mjs runs, in Node; on Linux x86-64 the programs.
class TracT64 < Formula
  desc "Processor for TRAC T-64, and debuggers that step back"
  homepage "PLACE"
  version "1.7.0"
  url "PLACE/trac-#{version}.tar.gz"
  sha256 "SUM"
  license "MIT"

  depends_on "node" if OS.mac? || Hardware::CPU.arm?

  def install
    if OS.mac? || Hardware::CPU.arm?
      libexec.install "release/trac.mjs"
      (bin/"trac").write <<~SH
        #!/bin/sh
        exec node "#{libexec}/trac.mjs" "$@"
      SH
      man1.install "share/man/trac.1"
      doc.install "LICENSE", "README.md", "docs", "programs"
    else
      ENV["DESTDIR"] = "/"
      system "./install", prefix
    end
  end

  test do
    assert_equal "5", pipe_output("#{bin}/trac run", "#(ad,2,3)'")
  end
end
