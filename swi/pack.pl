name(cti).
version('0.4').
title('The modes of logic programs: which queries end').
author('The authors of cti', '').
requires(prolog >= '9.0.0').
