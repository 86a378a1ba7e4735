# datatable.R IN OUT SCHEMA [THREADS]: fread and fwrite of data.table on one thread, or on so many; no fwrite where OUT is empty. Tells the
# seconds without R's own start.
suppressPackageStartupMessages(library(data.table))
words <- commandArgs(TRUE)
types <- sub(".*:", "", strsplit(words[3], ",", fixed = TRUE)[[1]])
setDTthreads(if (length(words) > 3) as.integer(words[4]) else 1L)
began <- Sys.time()
# Types are found by fread itself, but for texts, as its users do.
frame <- fread(words[1], sep = ",", header = TRUE, na.strings = "", strip.white = FALSE, encoding = "UTF-8",
               colClasses = list(character = which(types == "text")), showProgress = FALSE)
if (nzchar(words[2])) fwrite(frame, words[2], sep = ",", na = "", quote = "auto", eol = "\n", showProgress = FALSE)
cat(sprintf("seconds %.6f\n", as.numeric(Sys.time() - began, units = "secs")), file = stderr())
