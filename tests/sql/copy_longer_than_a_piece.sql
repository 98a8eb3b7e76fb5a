-- Data that are longer than what is read at a time: long fields, many rows, and many COPYs, whose lines end anywhere in it.
CREATE TABLE t (k bigint, v bigint, s text, PRIMARY KEY (k));
SELECT create_distributed_table('t', 'k', shard_count => 4);
COPY t FROM STDIN;
1	10	xxxxxxxxxxxxxxxxxxxxxxxxxxxxxxxxxxxxxxxxxxxxxxxxxxxxxxxxxxxxxxxxxxxxxxxxxxxxxxxxxxxxxxxxxxxxxxxxxxxxxxxxxxxxxxxxxxxxxxxxxxxxxxxxxxxxxxxxxxxxxxxxxxxxxxxxxxxxxxxxxxxxxxxxxxxxxxxxxxxxxxxxxxxxxxxxxxxxxxxxxxxxxxxxxxxxxxxxxxxxxxxxxxxxxxxxxxxxxxxxxxxxxxxxxxxxxxxxxxxxxxxxxxxxxxxxxxxxxxxxxxxxxxxxxxxxxxxxxxxxxxxxxxxxxxxxxxxxxxxxxxxxxxxxxxxxxxxxxxxxxxxxxxxxxxxxxxxxxxxxxxxxxxxxxxxxxxxxxxxxxxxxxxxxxxxxxxxxxxxxxxxxxxxxxxxxxxxxxxxxxxxxxxxxxxxxxxxxxxxxxxxxxxxxxxxxxxxxxxxxxxxxxxxxxxxxxxxxxxxxxxxxxxxxxxxxxxxxxxxxxxxxxxxxxxxxxxxxxxxxxxxxxxxxxxxxxxxxxxxxxxxxxxxxxxxxxxxxxxxxxxxxxxxxxxxxxxxxxxxxxxxxxxxxxxxxxxxxxxxxxxxxxxxxxxxxxxxxxxxxxxxxxxxxxxxxxxxxxxxxxxxxxxxxxxxxxxxxxxxxxxxxxxxxxxxxxxxxxxxxxxxxxxxxxxxxxxxxxxxxxxxxxxxxxxxxxxxxxxxxxxxxxxxxxxxxxxxxxxxxxxxxxxxxxxxxxxxxxxxxxxxxxxxxxxxxxxxxxxxxxxxxxxxxxxxxxxxxxxxxxxxxxxxxxxxxxxxxxxxxxxxxxxxxxxxxxxxxxxxxxxxxxxxxxxxxxxxxxxxxxxxxxxxxxxxxxxxxxxxxxxxxxxxxxxxxxxxxxxxxxxxxxxxxxxxxxxxxxxxxxxxxxxxxxxxxxxxxxxxxxxxxxxxxxxxxxxxxxxxxxxxxxxxxxxxxxxxxxxxxxxxxxxxxxxxxxxxxxxxxxxxxxxxxxxxxxxxxxxxxxxxxxxxxxxxxxxxxxxxxxxxxxxxxxxxxxxxxxxxxxxxxxxxxxxxxxxxxxxxxxxxxxxxxxxxxxxxxxxxxxxxxxxxxxxxxxxxxxxxxxxxxxxxxxxxxxxxxxxxxxxxxxxxxxxxxxxxxxxxxxxxxxxxxxxxxxxxxxxxxxxxxxxxxxxxxxxxxxxxxxxxxxxxxxxxxxxxxxxxxxxxxxxxxxxxxxxxxxxxxxxxxxxxxxxxxxxxxxxxxxxxxxxxxxxxxxxxxxxxxxxxxxxxxxxxxxxxxxxxxxxxxxxxxxxxxxxxxxxxxxxxxxxxxxxxxxxxxxxxxxxxxxxxxxxxxxxxxxxxxxxxxxxxxxxxxxxxxxxxxxxxxxxxxxxxxxxxxxxxxxxxxxxxxxxxxxxxxxxxxxxxxxxxxxxxxxxxxxxxxxxxxxxxxxxxxxxxxxxxxxxxxxxxxxxxxxxxxxxxxxxxxxxxxxxxxxxxxxxxxxxxxxxxxxxxxxxxxxxxxxxxxxxxxxxxxxxxxxxxxxxxxxxxxxxxxxxxxxxxxxxxxxxxxxxxxxxxxxxxxxxxxxxxxxxxxxxxxxxxxxxxxxxxxxxxxxxxxxxxxxxxxxxxxxxxxxxxxxxxxxxxxxxxxxxxxxxxxxxxxxxxxxxxxxxxxxxxxxxxxxxxxxxxxxxxxxxxxxxxxxxxxxxxxxxxxxxxxxxxxxxxxxxxxxxxxxxxxxxxxxxxxxxxxxxxxxxxxxxxxxxxxxxxxxxxxxxxxxxxxxxxxxxxxxxxxxxxxxxxxxxxxxxxxxxxxxxxxxxxxxxxxxxxxxxxxxxxxxxxxxxxxxxxxxxxxxxxxxxxxxxxxxxxxxxxxxxxxxxxxxxxxxxxxxxxxxxxxxxxxxxxxxxxxxxxxxxxxxxxxxxxxxxxxxxxxxxxxxxxxxxxxxxxxxxxxxxxxxxxxxxxxxxxxxxxxxxxxxxxxxxxxxxxxxxxxxxxxxxxxxxxxxxxxxxxxxxxxxxxxxxxxxxxxxxxxxxxxxxxxxxxxxxxxxxxxxxxxxxxxxxxxxxxxxxxxxxxxxxxxxxxxxxxxxxxxxxxxxxxxxxxxxxxxxxxxxxxxxxxxxxxxxxxxxxxxxxxxxxxxxxxxxxxxxxxxxxxxxxxxxxxxxxxxxxxxxxxxxxxxxxxxxxxxxxxxxxxxxxxxxxxxxxxxxxxxxxxxxxxxxxxxxxxxxxxxxxxxxxxxxxxxxxxxxxxxxxxxxxxxxxxxxxxxxxxxxxxxxxxxxxxxxxxxxxxxxxxxxxxxxxxxxxxxxxxxxxxxxxxxxxxxxxxxxxxxxxxxxxxxxxxxxxxxxxxxxxxxxxxxxxxxxxxxxxxxxxxxxxxxxxxxxxxxxxxxxxxxxxxxxxxxxxxxxxxxxxxxxxxxxxxxxxxxxxxxxxxxxxxxxxxxxxxxxxxxxxxxxxxxxxxxxxxxxxxxxxxxxxxxxxxxxxxxxxxxxxxxxxxxxxxxxxxxxxxxxxxxxxxxxxxxxxxxxxxxxxxxxxxxxxxxxxxxxxxxxxxxxxxxxxxxxxxxxxxxxxxxxxxxxxxxxxxxxxxxxxxxxxxxxxxxxxxxxxxxxxxxxxxxxxxxxxxxxxxxxxxxxxxxxxxxxxxxxxxxxxxxxxxxxxxxxxxxxxxxxxxxxxxxxxxxxxxxxxxxxxxxxxxxxxxxxxxxxxxxxxxxxxxxxxxxxxxxxxxxxxxxxxxxxxxxxxxxxxxxxxxxxxxxxxxxxxxxxxxxxxxxxxxxxxxxxxxxxxxxxxxxxxxxxxxxxxxxxxxxxxxxxxxxxxxxxxxxxxxxxxxxxxxxxxxxxxxxxxxxxxxxxxxxxxxxxxxxxxxxxxxxxxxxxxxxxxxxxxxxxxxxxxxxxxxxxxxxxxxxxxxxxxxxxxxxxxxxxxxxxxxxxxxxxxxxxxxxxxxxxxxxxxxxxxxxxxxxxxxxxxxxxxxxxxxxxxxxxxxxxxxxxxxxxxxxxxxxxxxxxxxxxxxxxxxxxxxxxxxxxxxxxxxxxxxxxxxxxxxxxxxxxxxxxxxxxxxxxxxxxxxxxxxxxxxxxxxxxxxxxxxxxxxxxxxxxxxxxxxxxxxxxxxxxxxxxxxxxxxxxxxxxxxxxxxxxxxxxxxxxxxxxxxxxxxxxxxxxxxxxxxxxxxxxxxxxxxxxxxxxxxxxxxxxxxxxxxxxxxxxxxxxxxxxxxxxxxxxxxxxxxxxxxxxxxxxxxxxxxxxxxxxxxxxxxxxxxxxxxxxxxxxxxxxxxxxxxxxxxxxxxxxxxxxxxxxxxxxxxxxxxxxxxxxxxxxxxxxxxxxxxxxxxxxxxxxxxxxxxxxxxxxxxxxxxxxxxxxxxxxxxxxxxxxxxxxxxxxxxxxxxxxxxxxxxxxxxxxxxxxxxxxxxxxxxxxxxxxxxxxxxxxxxxxxxxxxxxxxxxxxxxxxxxxxxxxxxxxxxxxxxxxxxxxxxxxxxxxxxxxxxxxxxxxxxxxxxxxxxxxxxxxxxxxxxxxxxxxxxxxxxxxxxxxxxxxxxxxxxxxxxxxxxxxxxxxxxxxxxxxxxxxxxxxxxxxxxxxxxxxxxxxxxxxxxxxxxxxxxxxxxxxxxxxxxxxxxxxxxxxxxxxxxxxxxxxxxxxxxxxxxxxxxxxxxxxxxxxxxxxxxxxxxxxxxxxxxxxxxxxxxxxxxxxxxxxxxxxxxxxxxxxxxxxxxxxxxxxxxxxxxxxxxxxxxxxxxxxxxxxxxxxxxxxxxxxxxxxxxxxxxxxxxxxxxxxxxxxxxxxxxxxxxxxxxxxxxxxxxxxxxxxxxxxxxxxxxxxxxxxxxxxxxxxxxxxxxxxxxxxxxxxxxxxxxxxxxxxxxxxxxxxxxxxxxxxxxxxxxxxxxxxxxxxxxxxxxxxxxxxxxxxxxxxxxxxxxxxxxxxxxxxxxxxxxxxxxxxxxxxxxxxxxxxxxxxxxxxxxxxxxxxxxxxxxxxxxxxxxxxxxxxxxxxxxxxxxxxxxxxxxxxxxxxxxxxxxxxxxxxxxxxxxxxxxxxxxxxxxxxxxxxxxxxxxxxxxxxxxxxxxxxxxxxxxxxxxxxxxxxxxxxxxxxxxxxxxxxxxxxxxxxxxxxxxxxxxxxxxxxxxxxxxxxxxxxxxxxxxxxxxxxxxxxxxxxxxxxxxxxxxxxxxxxxxxxxxxxxxxxxxxxxxxxxxxxxxxxxxxxxxxxxxxxxxxxxxxxxxxxxxxxxxxxxxxxxxxxxxxxxxxxxxxxxxxxxxxxxxxxxxxxxxxxxxxxxxxxxxxxxxxxxxxxxxxxxxxxxxxxxxxxxxxxxxxxxxxxxxxxxxxxxxxxxxxxxxxxxxxxxxxxxxxxxxxxxxxxxxxxxxxxxxxxxxxxxxxxxxxxxxxxxxxxxxxxxxxxxxxxxxxxxxxxxxxxxxxxxxxxxxxxxxxxxxxxxxxxxxxxxxxxxxxxxxxxxxxxxxxxxxxxxxxxxxxxxxxxxxxxxxxxxxxxxxxxxxxxxxxxxxxxxxxxxxxxxxxxxxxxxxxxxxxxxxxxxxxxxxxxxxxxxxxxxxxxxxxxxxxxxxxxxxxxxxxxxxxxxxxxxxxxxxxxxxxxxxxxxxxxxxxxxxxxxxxxxxxxxxxxxxxxxxxxxxxxxxxxxxxxxxxxxxxxxxxxxxxxxxxxxxxxxxxxxxxxxxxxxxxxxxxxxxxxxxxxxxxxxxxxxxxxxxxxxxxxxxxxxxxxxxxxxxxxxxxxxxxxxxxxxxxxxxxxxxxxxxxxxxxxxxxxxxxxxxxxxxxxxxxxxxxxxxxxxxxxxxxxxxxxxxxxxxxxxxxxxxxxxxxxxxxxxxxxxxxxxxxxxxxxxxxxxxxxxxxxxxxxxxxxxxxxxxxxxxxxxxxxxxxxxxxxxxxxxxxxxxxxxxxxxxxxxxxxxxxxxxxxxxxxxxxxxxxxxxxxxxxxxxxxxxxxxxxxxxxxxxxxxxxxxxxxxxxxxxxxxxxxxxxxxxxxxxx
2	20	\\\\\\\\\\\\\\\\\\\\\\\\\\\\\\\\\\\\\\\\\\\\\\\\\\\\\\\\\\\\\\\\\\\\\\\\\\\\\\\\\\\\\\\\\\\\\\\\\\\\\\\\\\\\\\\\\\\\\\\\\\\\\\\\\\\\\\\\\\\\\\\\\\\\\\\\\\\\\\\\\\\\\\\\\\\\\\\\\\\\\\\\\\\\\\\\\\\\\\\\\\\\\\\\\\\\\\\\\\\\\\\\\\\\\\\\\\\\\\\\\\\\\\\\\\\\\\\\\\\\\\\\\\\\\\\\\\\\\\\\\\\\\\\\\\\\\\\\\\\\\\\\\\\\\\\\\\\\\\\\\\\\\\\\\\\\\\\\\\\\\\\\\\\\\\\\\\\\\\\\\\\\\\\\\\\\\\\\\\\\\\\\\\\\\\\\\\\\\\\\\\\\\\\\\\\\\\\\\\\\\\\\\\\\\\\\\\\\\\\\\\\\\\\\\\\\\\\\\\\\\\\\\\\\\\\\\\\\\\\\\\\\\\\\\\\\\\\\\\\\\\\\\\\\\\\\\\\\\\\\\\\\\\\\\\\\\\\\\\\\\\\\\\\\\\\\\\\\\\\\\\\\\\\\\\\\\\\\\\\\\\\\\\\\\\\\\\\\\\\\\\\\\\\\\\\\\\\\\\\\\\\\\\\\\\\\\\\\\\\\\\\\\\\\\\\\\\\\\\\\\\\\\\\\\\\\\\\\\\\\\\\\\\\\\\\\\\\\\\\\\\\\\\\\\\\\\\\\\\\\\\\\\\\\\\\\\\\\\\\\\\\\\\\\\\\\\\\\\\\\\\\\\\\\\\\\\\\\\\\\\\\\\\\\\\\\\\\\\\\\\\\\\\\\\\\\\\\\\\\\\\\\\\\\\\\\\\\\\\\\\\\\\\\\\\\\\\\\\\\\\\\\\\\\\\\\\\\\\\\\\\\\\\\\\\\\\\\\\\\\\\\\\\\\\\\\\\\\\\\\\\\\\\\\\\\\\\\\\\\\\\\\\\\\\\\\\\\\\\\\\\\\\\\\\\\\\\\\\\\\\\\\\\\\\\\\\\\\\\\\\\\\\\\\\\\\\\\\\\\\\\\\\\\\\\\\\\\\\\\\\\\\\\\\\\\\\\\\\\\\\\\\\\\\\\\\\\\\\\\\\\\\\\\\\\\\\\\\\\\\\\\\\\\\\\\\\\\\\\\\\\\\\\\\\\\\\\\\\\\\\\\\\\\\\\\\\\\\\\\\\\\\\\\\\\\\\\\\\\\\\\\\\\\\\\\\\\\\\\\\\\\\\\\\\\\\\\\\\\\\\\\\\\\\\\\\\\\\\\\\\\\\\\\\\\\\\\\\\\\\\\\\\\\\\\\\\\\\\\\\\\\\\\\\\\\\\\\\\\\\\\\\\\\\\\\\\\\\\\\\\\\\\\\\\\\\\\\\\\\\\\\\\\\\\\\\\\\\\\\\\\\\\\\\\\\\\\\\\\\\\\\\\\\\\\\\\\\\\\\\\\\\\\\\\\\\\\\\\\\\\\\\\\\\\\\\\\\\\\\\\\\\\\\\\\\\\\\\\\\\\\\\\\\\\\\\\\\\\\\\\\\\\\\\\\\\\\\\\\\\\\\\\\\\\\\\\\\\\\\\\\\\\\\\\\\\\\\\\\\\\\\\\\\\\\\\\\\\\\\\\\\\\\\\\\\\\\\\\\\\\\\\\\\\\\\\\\\\\\\\\\\\\\\\\\\\\\\\\\\\\\\\\\\\\\\\\\\\\\\\\\\\\\\\\\\\\\\\\\\\\\\\\\\\\\\\\\\\\\\\\\\\\\\\\\\\\\\\\\\\\\\\\\\\\\\\\\\\\\\\\\\\\\\\\\\\\\\\\\\\\\\\\\\\\\\\\\\\\\\\\\\\\\\\\\\\\\\\\\\\\\\\\\\\\\\\\\\\\\\\\\\\\\\\\\\\\\\\\\\\\\\\\\\\\\\\\\\\\\\\\\\\\\\\\\\\\\\\\\\\\\\\\\\\\\\\\\\\\\\\\\\\\\\\\\\\\\\\\\\\\\\\\\\\\\\\\\\\\\\\\\\\\\\\\\\\\\\\\\\\\\\\\\\\\\\\\\\\\\\\\\\\\\\\\\\\\\\\\\\\\\\\\\\\\\\\\\\\\\\\\\\\\\\\\\\\\\\\\\\\\\\\\\\\\\\\\\\\\\\\\\\\\\\\\\\\\\\\\\\\\\\\\\\\\\\\\\\\\\\\\\\\\\\\\\\\\\\\\\\\\\\\\\\\\\\\\\\\\\\\\\\\\\\\\\\\\\\\\\\\\\\\\\\\\\\\\\\\\\\\\\\\\\\\\\\\\\\\\\\\\\\\\\\\\\\\\\\\\\\\\\\\\\\\\\\\\\\\\\\\\\\\\\\\\\\\\\\\\\\\\\\\\\\\\\\\\\\\\\\\\\\\\\\\\\\\\\\\\\\\\\\\\\\\\\\\\\\\\\\\\\\\\\\\\\\\\\\\\\\\\\\\\\\\\\\\\\\\\\\\\\\\\\\\\\\\\\\\\\\\\\\\\\\\\\\\\\\\\\\\\\\\\\\\\\\\\\\\\\\\\\\\\\\\\\\\\\\\\\\\\\\\\\\\\\\\\\\\\\\\\\\\\\\\\\\\\\\\\\\\\\\\\\\\\\\\\\\\\\\\\\\\\\\\\\\\\\\\\\\\\\\\\\\\\\\\\\\\\\\\\\\\\\\\\\\\\\\\\\\\\\\\\\\\\\\\\\\\\\\\\\\\\\\\\\\\\\\\\\\\\\\\\\\\\\\\\\\\\\\\\\\\\\\\\\\\\\\\\\\\\\\\\\\\\\\\\\\\\\\\\\\\\\\\\\\\\\\\\\\\\\\\\\\\\\\\\\\\\\\\\\\\\\\\\\\\\\\\\\\\\\\\\\\\\\\\\\\\\\\\\\\\\\\\\\\\\\\\\\\\\\\\\\\\\\\\\\\\\\\\\\\\\\\\\\\\\\\\\\\\\\\\\\\\\\\\\\\\\\\\\\\\\\\\\\\\\\\\\\\\\\\\\\\\\\\\\\\\\\\\\\\\\\\\\\\\\\\\\\\\\\\\\\\\\\\\\\\\\\\\\\\\\\\\\\\\\\\\\\\\\\\\\\\\\\\\\\\\\\\\\\\\\\\\\\\\\\\\\\\\\\\\\\\\\\\\\\\\\\\\\\\\\\\\\\\\\\\\\\\\\\\\\\\\\\\\\\\\\\\\\\\\\\\\\\\\\\\\\\\\\\\\\\\\\\\\\\\\\\\\\\\\\\\\\\\\\\\\\\\\\\\\\\\\\\\\\\\\\\\\\\\\\\\\\\\\\\\\\\\\\\\\\\\\\\\\\\\\\\\\\\\\\\\\\\\\\\\\\\\\\\\\\\\\\\\\\\\\\\\\\\\\\\\\\\\\\\\\\\\\\\\\\\\\\\\\\\\\\\\\\\\\\\\\\\\\\\\\\\\\\\\\\\\\\\\\\\\\\\\\\\\\\\\\\\\\\\\\\\\\\\\\\\\\\\\\\\\\\\\\\\\\\\\\\\\\\\\\\\\\\\\\\\\\\\\\\\\\\\\\\\\\\\\\\\\\\\\\\\\\\\\\\\\\\\\\\\\\\\\\\\\\\\\\\\\\\\\\\\\\\\\\\\\\\\\\\\\\\\\\\\\\\\\\\\\\\\\\\\\\\\\\\\\\\\\\\\\\\\\\\\\\\\\\\\\\\\\\\\\\\\\\\\\\\\\\\\\\\\\\\\\\\\\\\\\\\\\\\\\\\\\\\\\\\\\\\\\\\\\\\\\\\\\\\\\\\\\\\\\\\\\\\\\\\\\\\\\\\\\\\\\\\\\\\\\\\\\\\\\\\\\\\\\\\\\\\\\\\\\\\\\\\\\\\\\\\\\\\\\\\\\\\\\\\\\\\\\\\\\\\\\\\\\\\\\\\\\\\\\\\\\\\\\\\\\\\\\\\\\\\\\\\\\\\\\\\\\\\\\\\\\\\\\\\\\\\\\\\\\\\\\\\\\\\\\\\\\\\\\\\\\\\\\\\\\\\\\\\\\\\\\\\\\\\\\\\\\\\\\\\\\\\\\\\\\\\\\\\\\\\\\\\\\\\\\\\\\\\\\\\\\\\\\\\\\\\\\\\\\\\\\\\\\\\\\\\\\\\\\\\\\\\\\\\\\\\\\\\\\\\\\\\\\\\\\\\\\\\\\\\\\\\\\\\\\\\\\\\\\\\\\\\\\\\\\\\\\\\\\\\\\\\\\\\\\\\\\\\\\\\\\\\\\\\\\\\\\\\\\\\\\\\\\\\\\\\\\\\\\\\\\\\\\\\\\\\\\\\\\\\\\\\\\\\\\\\\\\\\\\\\\\\\\\\\\\\\\\\\\\\\\\\\\\\\\\\\\\\\\\\\\\\\\\\\\\\\\\\\\\\\\\\\\\\\\\\\\\\\\\\\\\\\\\\\\\\\\\\\\\\\\\\\\\\\\\\\\\\\\\\\\\\\\\\\\\\\\\\\\\\\\\\\\\\\\\\\\\\\\\\\\\\\\\\\\\\\\\\\\\\\\\\\\\\\\\\\\\\\\\\\\\\\\\\\\\\\\\\\\\\\\\\\\\\\\\\\\\\\\\\\\\\\\\\\\\\\\\\\\\\\\\\\\\\\\\\\\\\\\\\\\\\\\\\\\\\\\\\\\\\\\\\\\\\\\\\\\\\\\\\\\\\\\\\\\\\\\\\\\\\\\\\\\\\\\\\\\\\\\\\\\\\\\\\\\\\\\\\\\\\\\\\\\\\\\\\\\\\\\\\\\\\\\\\\\\\\\\\\\\\\\\\\\\\\\\\\\\\\\\\\\\\\\\\\\\\\\\\\\\\\\\\\\\\\\\\\\\\\\\\\\\\\\\\\\\\\\\\\\\\\\\\\\\\\\\\\\\\\\\\\\\\\\\\\\\\\\\\\\\\\\\\\\\\\\\\\\\\\\\\\\\\\\\\\\\\\\\\\\\\\\\\\\\\\\\\\\\\\\\\\\\\\\\\\\\\\\\\\\\\\\\\\\\\\\\\\\\\\\\\\\\\\\\\\\\\\\\\\\\\\\\\\\\\\\\\\\\\\\\\\\\\\\\\\\\\\\\\\\\\\\\\\\\\\\\\\\\\\\\\\\\\\\\\\\\\\\\\\\\\\\\\\\\\\\\\\\\\\\\\\\\\\\\\\\\\\\\\\\\\\\\\\\\\\\\\\\\\\\\\\\\\\\\\\\\\\\\\\\\\\\\\\\\\\\\\\\\\\\\\\\\\\\\\\\\\\\\\\\\\\\\\\\\\\\\\\\\\\\\\\\\\\\\\\\\\\\\\\\\\\\\\\\\\\\\\\\\\\\\\\\\\\\\\\\\\\\\\\\\\\\\\\\\\\\\\\\\\\\\
3	30	row 3
4	40	row 4
5	50	row 5
6	60	row 6
7	70	row 7
8	80	row 8
9	90	row 9
10	100	row 10
11	110	row 11
12	120	row 12
13	130	row 13
14	140	row 14
15	150	row 15
16	160	row 16
17	170	row 17
18	180	row 18
19	190	row 19
20	200	row 20
21	210	row 21
22	220	row 22
23	230	row 23
24	240	row 24
25	250	row 25
26	260	row 26
27	270	row 27
28	280	row 28
29	290	row 29
30	300	row 30
31	310	row 31
32	320	row 32
33	330	row 33
34	340	row 34
35	350	row 35
36	360	row 36
37	370	row 37
38	380	row 38
39	390	row 39
40	400	row 40
41	410	row 41
42	420	row 42
43	430	row 43
44	440	row 44
45	450	row 45
46	460	row 46
47	470	row 47
48	480	row 48
49	490	row 49
50	500	row 50
51	510	row 51
52	520	row 52
53	530	row 53
54	540	row 54
55	550	row 55
56	560	row 56
57	570	row 57
58	580	row 58
59	590	row 59
60	600	row 60
61	610	row 61
62	620	row 62
63	630	row 63
64	640	row 64
65	650	row 65
66	660	row 66
67	670	row 67
68	680	row 68
69	690	row 69
70	700	row 70
71	710	row 71
72	720	row 72
73	730	row 73
74	740	row 74
75	750	row 75
76	760	row 76
77	770	row 77
78	780	row 78
79	790	row 79
80	800	row 80
81	810	row 81
82	820	row 82
83	830	row 83
84	840	row 84
85	850	row 85
86	860	row 86
87	870	row 87
88	880	row 88
89	890	row 89
90	900	row 90
91	910	row 91
92	920	row 92
93	930	row 93
94	940	row 94
95	950	row 95
96	960	row 96
97	970	row 97
98	980	row 98
99	990	row 99
100	1000	row 100
101	1010	row 101
102	1020	row 102
103	1030	row 103
104	1040	row 104
105	1050	row 105
106	1060	row 106
107	1070	row 107
108	1080	row 108
109	1090	row 109
110	1100	row 110
111	1110	row 111
112	1120	row 112
113	1130	row 113
114	1140	row 114
115	1150	row 115
116	1160	row 116
117	1170	row 117
118	1180	row 118
119	1190	row 119
120	1200	row 120
121	1210	row 121
122	1220	row 122
123	1230	row 123
124	1240	row 124
125	1250	row 125
126	1260	row 126
127	1270	row 127
128	1280	row 128
129	1290	row 129
130	1300	row 130
131	1310	row 131
132	1320	row 132
133	1330	row 133
134	1340	row 134
135	1350	row 135
136	1360	row 136
137	1370	row 137
138	1380	row 138
139	1390	row 139
140	1400	row 140
141	1410	row 141
142	1420	row 142
143	1430	row 143
144	1440	row 144
145	1450	row 145
146	1460	row 146
147	1470	row 147
148	1480	row 148
149	1490	row 149
150	1500	row 150
151	1510	row 151
152	1520	row 152
153	1530	row 153
154	1540	row 154
155	1550	row 155
156	1560	row 156
157	1570	row 157
158	1580	row 158
159	1590	row 159
160	1600	row 160
161	1610	row 161
162	1620	row 162
163	1630	row 163
164	1640	row 164
165	1650	row 165
166	1660	row 166
167	1670	row 167
168	1680	row 168
169	1690	row 169
170	1700	row 170
171	1710	row 171
172	1720	row 172
173	1730	row 173
174	1740	row 174
175	1750	row 175
176	1760	row 176
177	1770	row 177
178	1780	row 178
179	1790	row 179
180	1800	row 180
181	1810	row 181
182	1820	row 182
183	1830	row 183
184	1840	row 184
185	1850	row 185
186	1860	row 186
187	1870	row 187
188	1880	row 188
189	1890	row 189
190	1900	row 190
191	1910	row 191
192	1920	row 192
193	1930	row 193
194	1940	row 194
195	1950	row 195
196	1960	row 196
197	1970	row 197
198	1980	row 198
199	1990	row 199
200	2000	row 200
201	2010	row 201
202	2020	row 202
203	2030	row 203
204	2040	row 204
205	2050	row 205
206	2060	row 206
207	2070	row 207
208	2080	row 208
209	2090	row 209
210	2100	row 210
211	2110	row 211
212	2120	row 212
213	2130	row 213
214	2140	row 214
215	2150	row 215
216	2160	row 216
217	2170	row 217
218	2180	row 218
219	2190	row 219
220	2200	row 220
221	2210	row 221
222	2220	row 222
223	2230	row 223
224	2240	row 224
225	2250	row 225
226	2260	row 226
227	2270	row 227
228	2280	row 228
229	2290	row 229
230	2300	row 230
231	2310	row 231
232	2320	row 232
233	2330	row 233
234	2340	row 234
235	2350	row 235
236	2360	row 236
237	2370	row 237
238	2380	row 238
239	2390	row 239
240	2400	row 240
241	2410	row 241
242	2420	row 242
243	2430	row 243
244	2440	row 244
245	2450	row 245
246	2460	row 246
247	2470	row 247
248	2480	row 248
249	2490	row 249
250	2500	row 250
251	2510	row 251
252	2520	row 252
253	2530	row 253
254	2540	row 254
255	2550	row 255
256	2560	row 256
257	2570	row 257
258	2580	row 258
259	2590	row 259
260	2600	row 260
261	2610	row 261
262	2620	row 262
263	2630	row 263
264	2640	row 264
265	2650	row 265
266	2660	row 266
267	2670	row 267
268	2680	row 268
269	2690	row 269
270	2700	row 270
271	2710	row 271
272	2720	row 272
273	2730	row 273
274	2740	row 274
275	2750	row 275
276	2760	row 276
277	2770	row 277
278	2780	row 278
279	2790	row 279
280	2800	row 280
281	2810	row 281
282	2820	row 282
283	2830	row 283
284	2840	row 284
285	2850	row 285
286	2860	row 286
287	2870	row 287
288	2880	row 288
289	2890	row 289
290	2900	row 290
291	2910	row 291
292	2920	row 292
293	2930	row 293
294	2940	row 294
295	2950	row 295
296	2960	row 296
297	2970	row 297
298	2980	row 298
299	2990	row 299
300	3000	row 300
301	3010	row 301
302	3020	row 302
303	3030	row 303
304	3040	row 304
305	3050	row 305
306	3060	row 306
307	3070	row 307
308	3080	row 308
309	3090	row 309
310	3100	row 310
311	3110	row 311
312	3120	row 312
313	3130	row 313
314	3140	row 314
315	3150	row 315
316	3160	row 316
317	3170	row 317
318	3180	row 318
319	3190	row 319
320	3200	row 320
321	3210	row 321
322	3220	row 322
323	3230	row 323
324	3240	row 324
325	3250	row 325
326	3260	row 326
327	3270	row 327
328	3280	row 328
329	3290	row 329
330	3300	row 330
331	3310	row 331
332	3320	row 332
333	3330	row 333
334	3340	row 334
335	3350	row 335
336	3360	row 336
337	3370	row 337
338	3380	row 338
339	3390	row 339
340	3400	row 340
341	3410	row 341
342	3420	row 342
343	3430	row 343
344	3440	row 344
345	3450	row 345
346	3460	row 346
347	3470	row 347
348	3480	row 348
349	3490	row 349
350	3500	row 350
351	3510	row 351
352	3520	row 352
353	3530	row 353
354	3540	row 354
355	3550	row 355
356	3560	row 356
357	3570	row 357
358	3580	row 358
359	3590	row 359
360	3600	row 360
361	3610	row 361
362	3620	row 362
363	3630	row 363
364	3640	row 364
365	3650	row 365
366	3660	row 366
367	3670	row 367
368	3680	row 368
369	3690	row 369
370	3700	row 370
371	3710	row 371
372	3720	row 372
373	3730	row 373
374	3740	row 374
375	3750	row 375
376	3760	row 376
377	3770	row 377
378	3780	row 378
379	3790	row 379
380	3800	row 380
381	3810	row 381
382	3820	row 382
383	3830	row 383
384	3840	row 384
385	3850	row 385
386	3860	row 386
387	3870	row 387
388	3880	row 388
389	3890	row 389
390	3900	row 390
391	3910	row 391
392	3920	row 392
393	3930	row 393
394	3940	row 394
395	3950	row 395
396	3960	row 396
397	3970	row 397
398	3980	row 398
399	3990	row 399
400	4000	row 400
401	4010	row 401
402	4020	row 402
403	4030	row 403
404	4040	row 404
405	4050	row 405
406	4060	row 406
407	4070	row 407
408	4080	row 408
409	4090	row 409
410	4100	row 410
411	4110	row 411
412	4120	row 412
413	4130	row 413
414	4140	row 414
415	4150	row 415
416	4160	row 416
417	4170	row 417
418	4180	row 418
419	4190	row 419
420	4200	row 420
421	4210	row 421
422	4220	row 422
423	4230	row 423
424	4240	row 424
425	4250	row 425
426	4260	row 426
427	4270	row 427
428	4280	row 428
429	4290	row 429
430	4300	row 430
431	4310	row 431
432	4320	row 432
433	4330	row 433
434	4340	row 434
435	4350	row 435
436	4360	row 436
437	4370	row 437
438	4380	row 438
439	4390	row 439
440	4400	row 440
441	4410	row 441
442	4420	row 442
443	4430	row 443
444	4440	row 444
445	4450	row 445
446	4460	row 446
447	4470	row 447
448	4480	row 448
449	4490	row 449
450	4500	row 450
451	4510	row 451
452	4520	row 452
453	4530	row 453
454	4540	row 454
455	4550	row 455
456	4560	row 456
457	4570	row 457
458	4580	row 458
459	4590	row 459
460	4600	row 460
461	4610	row 461
462	4620	row 462
463	4630	row 463
464	4640	row 464
465	4650	row 465
466	4660	row 466
467	4670	row 467
468	4680	row 468
469	4690	row 469
470	4700	row 470
471	4710	row 471
472	4720	row 472
473	4730	row 473
474	4740	row 474
475	4750	row 475
476	4760	row 476
477	4770	row 477
478	4780	row 478
479	4790	row 479
480	4800	row 480
481	4810	row 481
482	4820	row 482
483	4830	row 483
484	4840	row 484
485	4850	row 485
486	4860	row 486
487	4870	row 487
488	4880	row 488
489	4890	row 489
490	4900	row 490
491	4910	row 491
492	4920	row 492
493	4930	row 493
494	4940	row 494
495	4950	row 495
496	4960	row 496
497	4970	row 497
498	4980	row 498
499	4990	row 499
500	5000	row 500
501	5010	row 501
502	5020	row 502
\.
COPY t FROM STDIN (FORMAT CSV);
1001,10,"line
line
line
line
line
line
line
line
line
line
line
line
line
line
line
line
line
line
line
line
line
line
line
line
line
line
line
line
line
line
line
line
line
line
line
line
line
line
line
line
line
line
line
line
line
line
line
line
line
line
line
line
line
line
line
line
line
line
line
line
line
line
line
line
line
line
line
line
line
line
line
line
line
line
line
line
line
line
line
line
line
line
line
line
line
line
line
line
line
line
line
line
line
line
line
line
line
line
line
line
line
line
line
line
line
line
line
line
line
line
line
line
line
line
line
line
line
line
line
line
line
line
line
line
line
line
line
line
line
line
line
line
line
line
line
line
line
line
line
line
line
line
line
line
line
line
line
line
line
line
line
line
line
line
line
line
line
line
line
line
line
line
line
line
line
line
line
line
line
line
line
line
line
line
line
line
line
line
line
line
line
line
line
line
line
line
line
line
line
line
line
line
line
line
line
line
line
line
line
line
line
line
line
line
line
line
line
line
line
line
line
line
line
line
line
line
line
line
line
line
line
line
line
line
line
line
line
line
line
line
line
line
line
line
line
line
line
line
line
line
line
line
line
line
line
line
line
line
line
line
line
line
line
line
line
line
line
line
line
line
line
line
line
line
line
line
line
line
line
line
line
line
line
line
line
line
line
line
line
line
line
line
line
line
line
line
line
line
line
line
line
line
line
line
line
line
line
line
line
line
line
line
line
line
line
line
line
line
line
line
line
line
line
line
line
line
line
line
line
line
line
line
line
line
line
line
line
line
line
line
line
line
line
line
line
line
line
line
line
line
line
line
line
line
line
line
line
line
line
line
line
line
line
line
line
line
line
line
line
line
line
line
line
line
line
line
line
line
line
line
line
line
line
line
line
line
line
line
line
line
line
line
line
line
line
line
line
line
line
line
line
line
line
line
line
line
line
line
line
line
line
line
line
line
line
line
line
line
line
line
line
line
line
line
line
line
line
line
line
line
line
line
line
line
line
line
line
line
line
line
line
line
line
line
line
line
line
line
line
line
line
line
line
line
line
line
line
line
line
line
line
line
line
line
line
line
line
line
line
line
line
line
line
line
line
line
line
line
line
line
line
line
line
line
line
line
line
line
line
line
line
line
line
line
line
line
line
line
line
line
line
line
line
line
line
line
line
line
line
line
line
line
line
line
line
line
line
line
line
line
line
line
line
line
line
line
line
line
line
line
line
line
line
line
line
line
line
line
line
line
line
line
line
line
line
line
line
line
line
line
line
line
line
line
line
line
line
line
line
line
line
line
line
line
line
line
line
line
line
line
line
line
line
line
line
line
line
line
line
line
line
line
line
line
line
line
line
line
line
line
line
line
line
line
line
line
line
line
line
line
line
line
line
line
line
line
line
line
line
line
line
line
line
line
line
line
line
line
line
line
line
line
line
line
line
line
line
line
line
line
line
line
line
line
line
line
line
line
line
line
line
line
line
line
line
line
line
line
line
line
line
line
line
line
line
line
line
line
line
line
line
line
line
line
line
line
line
line
line
line
line
line
line
line
line
line
line
line
line
line
line
line
line
line
line
line
line
line
line
line
line
line
line
line
line
line
line
line
line
line
line
line
line
line
line
line
line
line
line
line
line
line
line
line
line
line
line
line
line
line
line
line
line
line
line
line
line
line
line
line
line
line
line
line
line
line
line
line
line
line
line
line
line
line
line
line
line
line
line
line
line
line
line
line
line
line
line
line
line
line
line
line
line
line
line
line
line
line
line
line
line
line
line
line
line
line
line
line
line
line
line
line
line
line
line
line
line
line
line
line
line
line
line
line
line
line
line
line
line
line
line
line
line
line
line
line
line
line
line
line
line
line
line
line
line
line
line
line
line
line
line
line
line
line
line
line
line
line
line
line
line
line
line
line
line
line
line
line
line
line
line
line
line
line
line
line
line
line
line
line
line
line
line
line
line
line
line
line
line
line
line
line
line
line
line
line
line
line
line
line
line
line
line
line
line
line
line
line
line
line
line
line
line
line
line
line
line
line
line
line
line
line
line
line
line
line
line
line
line
line
line
line
line
line
line
line
line
line
line
line
line
line
line
line
line
line
line
line
line
line
line
line
line
line
line
line
line
line
line
line
line
line
line
line
line
line
line
line
line
line
line
line
line
line
line
line
line
line
line
line
line
line
line
line
line
line
line
line
line
line
line
line
line
line
line
line
line
line
line
line
line
line
line
line
line
line
line
line
line
line
line
line
line
line
line
line
line
line
line
line
line
line
line
line
line
line
line
line
line
line
line
line
line
line
line
line
line
line
line
line
"
1002,20,""""""""""""""""""""""""""""""""""""""""""""""""""""""""""""""""""""""""""""""""""""""""""""""""""""""""""""""""""""""""""""""""""""""""""""""""""""""""""""""""""""""""""""""""""""""""""""""""""""""""""""""""""""""""""""""""""""""""""""""""""""""""""""""""""""""""""""""""""""""""""""""""""""""""""""""""""""""""""""""""""""""""""""""""""""""""""""""""""""""""""""""""""""""""""""""""""""""""""""""""""""""""""""""""""""""""""""""""""""""""""""""""""""""""""""""""""""""""""""""""""""""""""""""""""""""""""""""""""""""""""""""""""""""""""""""""""""""""""""""""""""""""""""""""""""""""""""""""""""""""""""""""""""""""""""""""""""""""""""""""""""""""""""""""""""""""""""""""""""""""""""""""""""""""""""""""""""""""""""""""""""""""""""""""""""""""""""""""""""""""""""""""""""""""""""""""""""""""""""""""""""""""""""""""""""""""""""""""""""""""""""""""""""""""""""""""""""""""""""""""""""""""""""""""""""""""""""""""""""""""""""""""""""""""""""""""""""""""""""""""""""""""""""""""""""""""""""""""""""""""""""""""""""""""""""""""""""""""""""""""""""""""""""""""""""""""""""""""""""""""""""""""""""""""""""""""""""""""""""""""""""""""""""""""""""""""""""""""""""""""""""""""""""""""""""""""""""""""""""""""""""""""""""""""""""""""""""""""""""""""""""""""""""""""""""""""""""""""""""""""""""""""""""""""""""""""""""""""""""""""""""""""""""""""""""""""""""""""""""""""""""""""""""""""""""""""""""""""""""""""""""""""""""""""""""""""""""""""""""""""""""""""""""""""""""""""""""""""""""""""""""""""""""""""""""""""""""""""""""""""""""""""""""""""""""""""""""""""""""""""""""""""""""""""""""""""""""""""""""""""""""""""""""""""""""""""""""""""""""""""""""""""""""""""""""""""""""""""""""""""""""""""""""""""""""""""""""""""""""""""""""""""""""""""""""""""""""""""""""""""""""""""""""""""""""""""""""""""""""""""""""""""""""""""""""""""""""""""""""""""""""""""""""""""""""""""""""""""""""""""""""""""""""""""""""""""""""""""""""""""""""""""""""""""""""""""""""""""""""""""""""""""""""""""""""""""""""""""""""""""""""""""""""""""""""""""""""""""""""""""""""""""""""""""""""""""""""""""""""""""""""""""""""""""""""""""""""""""""""""""""""""""""""""""""""""""""""""""""""""""""""""""""""""""""""""""""""""""""""""""""""""""""""""""""""""""""""""""""""""""""""""""""""""""""""""""""""""""""""""""""""""""""""""""""""""""""""""""""""""""""""""""""""""""""""""""""""""""""""""""""""""""""""""""""""""""""""""""""""""""""""""""""""""""""""""""""""""""""""""""""""""""""""""""""""""""""""""""""""""""""""""""""""""""""""""""""""""""""""""""""""""""""""""""""""""""""""""""""""""""""""""""""""""""""""""""""""""""""""""""""""""""""""""""""""""""""""""""""""""""""""""""""""""""""""""""""""""""""""""""""""""""""""""""""""""""""""""""""""""""""""""""""""""""""""""""""""""""""""""""""""""""""""""""""""""""""""""""""""""""""""""""""""""""""""""""""""""""""""""""""""""""""""""""""""""""""""""""""""""""""""""""""""""""""""""""""""""""""""""""""""""""""""""""""""""""""""""""""""""""""""""""""""""""""""""""""""""""""""""""""""""""""""""""""""""""""""""""""""""""""""""""""""""""""""""""""""""""""""""""""""""""""""""""""""""""""""""""""""""""""""""""""""""""""""""""""""""""""""""""""""""""""""""""""""""""""""""""""""""""""""""""""""""""""""""""""""""""""""""""""""""""""""""""""""""""""""""""""""""""""""""""""""""""""""""""""""""""""""""""""""""""""""""""""""""""""""""""""""""""""""""""""""""""""""""""""""""""""""""""""""""""""""""""""""""""""""""""""""""""""""""""""""""""""""""""""""""""""""""""""""""""""""""""""""""""""""""""""""""""""""""""""""""""""""""""""""""""""""""""""""""""""""""""""""""""""""""""""""""""""""""""""""""""""""""""""""""""""""""""""""""""""""""""""""""""""""""""""""""""""""""""""""""""""""""""""""""""""""""""""""""""""""""""""""""""""""""""""""""""""""""""""""""""""""""""""""""""""""""""""""""""""""""""""""""""""""""""""""""""""""""""""""""""""""""""""""""""""""""""""""""""""""""""""""""""""""""""""""""""""""""""""""""""""""""""""""""""""""""""""""""""""""""""""""""""""""""""""""""""""""""""""""""""""""""""""""""""""""""""""""""""""""""""""""""""""""""""""""""""""""""""""""""""""""""""""""""""""""""""""""""""""""""""""""""""""""""""""""""""""""""""""""""""""""""""""""""""""""""""""""""""""""""""""""""""""""""""""""""""""""""""""""""""""""""""""""""""""""""""""""""""""""""""""""""""""""""""""""""""""""""""""""""""""""""""""""""""""""""""""""""""""""""""""""""""""""""""""""""""""""""""""""""""""""""""""""""""""""""""""""""""""""""""""""""""""""""""""""""""""""""""""""""""""""""""""""""""""""""""""""""""""""""""""""""""""""""""""""""""""""""""""""""""""""""""""""""""""""""""""""""""""""""""""""""""""""""""""""""""""""""""""""""""""""""""""""""""""""""""""""""""""""""""""""""""""""""""""""""""""""""""""""""""""""""""""""""""""""""""""""""""""""""""""""""""""""""""""""""""""""""""""""""""""""""""""""""""""""""""""""""""""""""""""""""""""""""""""""""""""""""""""""""""""""""""""""""""""""""""""""""""""""""""""""""""""""""""""""""""""""""""""""""""""""""""""""""""""""""""""
1003,1003,row 1003
1004,1004,row 1004
1005,1005,row 1005
1006,1006,row 1006
1007,1007,row 1007
1008,1008,row 1008
1009,1009,row 1009
1010,1010,row 1010
1011,1011,row 1011
1012,1012,row 1012
1013,1013,row 1013
1014,1014,row 1014
1015,1015,row 1015
1016,1016,row 1016
1017,1017,row 1017
1018,1018,row 1018
1019,1019,row 1019
1020,1020,row 1020
1021,1021,row 1021
1022,1022,row 1022
1023,1023,row 1023
1024,1024,row 1024
1025,1025,row 1025
1026,1026,row 1026
1027,1027,row 1027
1028,1028,row 1028
1029,1029,row 1029
1030,1030,row 1030
1031,1031,row 1031
1032,1032,row 1032
1033,1033,row 1033
1034,1034,row 1034
1035,1035,row 1035
1036,1036,row 1036
1037,1037,row 1037
1038,1038,row 1038
1039,1039,row 1039
1040,1040,row 1040
1041,1041,row 1041
1042,1042,row 1042
1043,1043,row 1043
1044,1044,row 1044
1045,1045,row 1045
1046,1046,row 1046
1047,1047,row 1047
1048,1048,row 1048
1049,1049,row 1049
1050,1050,row 1050
1051,1051,row 1051
1052,1052,row 1052
1053,1053,row 1053
1054,1054,row 1054
1055,1055,row 1055
1056,1056,row 1056
1057,1057,row 1057
1058,1058,row 1058
1059,1059,row 1059
1060,1060,row 1060
1061,1061,row 1061
1062,1062,row 1062
1063,1063,row 1063
1064,1064,row 1064
1065,1065,row 1065
1066,1066,row 1066
1067,1067,row 1067
1068,1068,row 1068
1069,1069,row 1069
1070,1070,row 1070
1071,1071,row 1071
1072,1072,row 1072
1073,1073,row 1073
1074,1074,row 1074
1075,1075,row 1075
1076,1076,row 1076
1077,1077,row 1077
1078,1078,row 1078
1079,1079,row 1079
1080,1080,row 1080
1081,1081,row 1081
1082,1082,row 1082
1083,1083,row 1083
1084,1084,row 1084
1085,1085,row 1085
1086,1086,row 1086
1087,1087,row 1087
1088,1088,row 1088
1089,1089,row 1089
1090,1090,row 1090
1091,1091,row 1091
1092,1092,row 1092
1093,1093,row 1093
1094,1094,row 1094
1095,1095,row 1095
1096,1096,row 1096
1097,1097,row 1097
1098,1098,row 1098
1099,1099,row 1099
1100,1100,row 1100
1101,1101,row 1101
1102,1102,row 1102
1103,1103,row 1103
1104,1104,row 1104
1105,1105,row 1105
1106,1106,row 1106
1107,1107,row 1107
1108,1108,row 1108
1109,1109,row 1109
1110,1110,row 1110
1111,1111,row 1111
1112,1112,row 1112
1113,1113,row 1113
1114,1114,row 1114
1115,1115,row 1115
1116,1116,row 1116
1117,1117,row 1117
1118,1118,row 1118
1119,1119,row 1119
1120,1120,row 1120
1121,1121,row 1121
1122,1122,row 1122
1123,1123,row 1123
1124,1124,row 1124
1125,1125,row 1125
1126,1126,row 1126
1127,1127,row 1127
1128,1128,row 1128
1129,1129,row 1129
1130,1130,row 1130
1131,1131,row 1131
1132,1132,row 1132
1133,1133,row 1133
1134,1134,row 1134
1135,1135,row 1135
1136,1136,row 1136
1137,1137,row 1137
1138,1138,row 1138
1139,1139,row 1139
1140,1140,row 1140
1141,1141,row 1141
1142,1142,row 1142
1143,1143,row 1143
1144,1144,row 1144
1145,1145,row 1145
1146,1146,row 1146
1147,1147,row 1147
1148,1148,row 1148
1149,1149,row 1149
1150,1150,row 1150
1151,1151,row 1151
1152,1152,row 1152
1153,1153,row 1153
1154,1154,row 1154
1155,1155,row 1155
1156,1156,row 1156
1157,1157,row 1157
1158,1158,row 1158
1159,1159,row 1159
1160,1160,row 1160
1161,1161,row 1161
1162,1162,row 1162
1163,1163,row 1163
1164,1164,row 1164
1165,1165,row 1165
1166,1166,row 1166
1167,1167,row 1167
1168,1168,row 1168
1169,1169,row 1169
1170,1170,row 1170
1171,1171,row 1171
1172,1172,row 1172
1173,1173,row 1173
1174,1174,row 1174
1175,1175,row 1175
1176,1176,row 1176
1177,1177,row 1177
1178,1178,row 1178
1179,1179,row 1179
1180,1180,row 1180
1181,1181,row 1181
1182,1182,row 1182
1183,1183,row 1183
1184,1184,row 1184
1185,1185,row 1185
1186,1186,row 1186
1187,1187,row 1187
1188,1188,row 1188
1189,1189,row 1189
1190,1190,row 1190
1191,1191,row 1191
1192,1192,row 1192
1193,1193,row 1193
1194,1194,row 1194
1195,1195,row 1195
1196,1196,row 1196
1197,1197,row 1197
1198,1198,row 1198
1199,1199,row 1199
1200,1200,row 1200
1201,1201,row 1201
1202,1202,row 1202
\.
SELECT count(*), sum(v), max(k) FROM t;
SELECT k FROM t WHERE s = 'xxxxxxxxxxxxxxxxxxxxxxxxxxxxxxxxxxxxxxxxxxxxxxxxxxxxxxxxxxxxxxxxxxxxxxxxxxxxxxxxxxxxxxxxxxxxxxxxxxxxxxxxxxxxxxxxxxxxxxxxxxxxxxxxxxxxxxxxxxxxxxxxxxxxxxxxxxxxxxxxxxxxxxxxxxxxxxxxxxxxxxxxxxxxxxxxxxxxxxxxxxxxxxxxxxxxxxxxxxxxxxxxxxxxxxxxxxxxxxxxxxxxxxxxxxxxxxxxxxxxxxxxxxxxxxxxxxxxxxxxxxxxxxxxxxxxxxxxxxxxxxxxxxxxxxxxxxxxxxxxxxxxxxxxxxxxxxxxxxxxxxxxxxxxxxxxxxxxxxxxxxxxxxxxxxxxxxxxxxxxxxxxxxxxxxxxxxxxxxxxxxxxxxxxxxxxxxxxxxxxxxxxxxxxxxxxxxxxxxxxxxxxxxxxxxxxxxxxxxxxxxxxxxxxxxxxxxxxxxxxxxxxxxxxxxxxxxxxxxxxxxxxxxxxxxxxxxxxxxxxxxxxxxxxxxxxxxxxxxxxxxxxxxxxxxxxxxxxxxxxxxxxxxxxxxxxxxxxxxxxxxxxxxxxxxxxxxxxxxxxxxxxxxxxxxxxxxxxxxxxxxxxxxxxxxxxxxxxxxxxxxxxxxxxxxxxxxxxxxxxxxxxxxxxxxxxxxxxxxxxxxxxxxxxxxxxxxxxxxxxxxxxxxxxxxxxxxxxxxxxxxxxxxxxxxxxxxxxxxxxxxxxxxxxxxxxxxxxxxxxxxxxxxxxxxxxxxxxxxxxxxxxxxxxxxxxxxxxxxxxxxxxxxxxxxxxxxxxxxxxxxxxxxxxxxxxxxxxxxxxxxxxxxxxxxxxxxxxxxxxxxxxxxxxxxxxxxxxxxxxxxxxxxxxxxxxxxxxxxxxxxxxxxxxxxxxxxxxxxxxxxxxxxxxxxxxxxxxxxxxxxxxxxxxxxxxxxxxxxxxxxxxxxxxxxxxxxxxxxxxxxxxxxxxxxxxxxxxxxxxxxxxxxxxxxxxxxxxxxxxxxxxxxxxxxxxxxxxxxxxxxxxxxxxxxxxxxxxxxxxxxxxxxxxxxxxxxxxxxxxxxxxxxxxxxxxxxxxxxxxxxxxxxxxxxxxxxxxxxxxxxxxxxxxxxxxxxxxxxxxxxxxxxxxxxxxxxxxxxxxxxxxxxxxxxxxxxxxxxxxxxxxxxxxxxxxxxxxxxxxxxxxxxxxxxxxxxxxxxxxxxxxxxxxxxxxxxxxxxxxxxxxxxxxxxxxxxxxxxxxxxxxxxxxxxxxxxxxxxxxxxxxxxxxxxxxxxxxxxxxxxxxxxxxxxxxxxxxxxxxxxxxxxxxxxxxxxxxxxxxxxxxxxxxxxxxxxxxxxxxxxxxxxxxxxxxxxxxxxxxxxxxxxxxxxxxxxxxxxxxxxxxxxxxxxxxxxxxxxxxxxxxxxxxxxxxxxxxxxxxxxxxxxxxxxxxxxxxxxxxxxxxxxxxxxxxxxxxxxxxxxxxxxxxxxxxxxxxxxxxxxxxxxxxxxxxxxxxxxxxxxxxxxxxxxxxxxxxxxxxxxxxxxxxxxxxxxxxxxxxxxxxxxxxxxxxxxxxxxxxxxxxxxxxxxxxxxxxxxxxxxxxxxxxxxxxxxxxxxxxxxxxxxxxxxxxxxxxxxxxxxxxxxxxxxxxxxxxxxxxxxxxxxxxxxxxxxxxxxxxxxxxxxxxxxxxxxxxxxxxxxxxxxxxxxxxxxxxxxxxxxxxxxxxxxxxxxxxxxxxxxxxxxxxxxxxxxxxxxxxxxxxxxxxxxxxxxxxxxxxxxxxxxxxxxxxxxxxxxxxxxxxxxxxxxxxxxxxxxxxxxxxxxxxxxxxxxxxxxxxxxxxxxxxxxxxxxxxxxxxxxxxxxxxxxxxxxxxxxxxxxxxxxxxxxxxxxxxxxxxxxxxxxxxxxxxxxxxxxxxxxxxxxxxxxxxxxxxxxxxxxxxxxxxxxxxxxxxxxxxxxxxxxxxxxxxxxxxxxxxxxxxxxxxxxxxxxxxxxxxxxxxxxxxxxxxxxxxxxxxxxxxxxxxxxxxxxxxxxxxxxxxxxxxxxxxxxxxxxxxxxxxxxxxxxxxxxxxxxxxxxxxxxxxxxxxxxxxxxxxxxxxxxxxxxxxxxxxxxxxxxxxxxxxxxxxxxxxxxxxxxxxxxxxxxxxxxxxxxxxxxxxxxxxxxxxxxxxxxxxxxxxxxxxxxxxxxxxxxxxxxxxxxxxxxxxxxxxxxxxxxxxxxxxxxxxxxxxxxxxxxxxxxxxxxxxxxxxxxxxxxxxxxxxxxxxxxxxxxxxxxxxxxxxxxxxxxxxxxxxxxxxxxxxxxxxxxxxxxxxxxxxxxxxxxxxxxxxxxxxxxxxxxxxxxxxxxxxxxxxxxxxxxxxxxxxxxxxxxxxxxxxxxxxxxxxxxxxxxxxxxxxxxxxxxxxxxxxxxxxxxxxxxxxxxxxxxxxxxxxxxxxxxxxxxxxxxxxxxxxxxxxxxxxxxxxxxxxxxxxxxxxxxxxxxxxxxxxxxxxxxxxxxxxxxxxxxxxxxxxxxxxxxxxxxxxxxxxxxxxxxxxxxxxxxxxxxxxxxxxxxxxxxxxxxxxxxxxxxxxxxxxxxxxxxxxxxxxxxxxxxxxxxxxxxxxxxxxxxxxxxxxxxxxxxxxxxxxxxxxxxxxxxxxxxxxxxxxxxxxxxxxxxxxxxxxxxxxxxxxxxxxxxxxxxxxxxxxxxxxxxxxxxxxxxxxxxxxxxxxxxxxxxxxxxxxxxxxxxxxxxxxxxxxxxxxxxxxxxxxxxxxxxxxxxxxxxxxxxxxxxxxxxxxxxxxxxxxxxxxxxxxxxxxxxxxxxxxxxxxxxxxxxxxxxxxxxxxxxxxxxxxxxxxxxxxxxxxxxxxxxxxxxxxxxxxxxxxxxxxxxxxxxxxxxxxxxxxxxxxxxxxxxxxxxxxxxxxxxxxxxxxxxxxxxxxxxxxxxxxxxxxxxxxxxxxxxxxxxxxxxxxxxxxxxxxxxxxxxxxxxxxxxxxxxxxxxxxxxxxxxxxxxxxxxxxxxxxxxxxxxxxxxxxxxxxxxxxxxxxxxxxxxxxxxxxxxxxxxxxxxxxxxxxxxxxxxxxxxxxxxxxxxxxxxxxxxxxxxxxxxxxxxxxxxxxxxxxxxxxxxxxxxxxxxxxxxxxxxxxxxxxxxxxxxxxxxxxxxxxxxxxxxxxxxxxxxxxxxxxxxxxxxxxxxxxxxxxxxxxxxxxxxxxxxxxxxxxxxxxxxxxxxxxxxxxxxxxxxxxxxxxxxxxxxxxxxxxxxxxxxxxxxxxxxxxxxxxxxxxxxxxxxxxxxxxxxxxxxxxxxxxxxxxxxxxxxxxxxxxxxxxxxxxxxxxxxxxxxxxxxxxxxxxxxxxxxxxxxxxxxxxxxxxxxxxxxxxxxxxxxxxxxxxxxxxxxxxxxxxxxxxxxxxxxxxxxxxxxxxxxxxxxxxxxxxxxxxxxxxxxxxxxxxxxxxxxxxxxxxxxxxxxxxxxxxxxxxxxxxxxxxxxxxxxxxxxxxxxxxxxxxxxxxxxxxxxxxxxxxxxxxxxxxxxxxxxxxxxxxxxxxxxxxxxxxxxxxxxxxxxxxxxxxxxxxxxxxxxxxxxxxxxxxxxxxxxxxxxxxxxxxxxxxxxxxxxxxxxxxxxxxxxxxxxxxxxxxxxxxxxxxxxxxxxxxxxxxxxxxxxxxxxxxxxxxxxxxxxxxxxxxxxxxxxxxxxxxxxxxxxxxxxxxxxxxxxxxxxxxxxxxxxxxxxxxxxxxxxxxxxxxxxxxxxxxxxxxxxxxxxxxxxxxxxxxxxxxxxxxxxxxxxxxxxxxxxxxxxxxxxxxxxxxxxxxxxxxxxxxxxxxxxxxxxxxxxxxxxxxxxxxxxxxxxxxxxxxxxxxxxxxxxxxxxxxxxxxxxxxxxxxxxxxxxxxxxxxxxxxxxxxxxxxxxxxxxxxxxxxxxxxxxxxxxxxxxxxxxxxxxxxxxxxxxxxxxxxxxxxxxxxxxxxxxxxxxxxxxxxxxxxxxxxxxxxxxxxxxxxxxxxxxxxxxxxxxxxxxxxxxxxxxxxxxxxxxxxxxxxxxxxxxxxxxxxxxxxxxxxxxxxxxxxxxxxxxxxxxxxxxxxxxxxxxxxxxxxxxxxxxxxxxxxxxxxxxxxxxxxxxxxxxxxxxxxxxxxxxxxxxxxxxxxxxxxxxxxxxxxxxxxxxxxxxxxxxxxxxxxxxxxxxxxxxxxxxxxxxxxxxxxxxxxxxxxxxxxxxxxxxxxxxxxxxxxxxxxxxxxxxxxxxxxxxxxxxxxxxxxxxxxxxxxxxxxxxxxxxxxxxxxxxxxxxxxxxxxxxxxxxxxxxxxxxxxxxxxxxxxxxxxxxxxxxxxxxxxxxxxxxxxxxxxxxxxxxxxxxxxxxxxxxxxxxxxxxxxxxxxxxxxxxxxxxxxxxxxxxxxxxxxxxxxxxxxxxxxxxxxxxxxxxxxxxxxxxxxxxxxxxxxxxxxxxxxxxxxxxxxxxxxxxxxxxxxxxxxxxxxxxxxxxxxxxxxxxxxxxxxxxxxxxxxxxxxxxxxxxxxxxxxxxxxxxxxxxxxxxxxxxxxxxxxxxxxxxxxxxxxxxxxxxxxxxxxxxxxxxxxxxxxxxxxxxxxxxxxxxxxxxxxxxxxxxxxxxxxxxxxxxxxxxxxxxxxxxxxxxxxxxxxxxxxxxxxxxxxxxxxxxxxxxxxxxxxxxxxxxxxxxxxxxxxxxxxxxxxxxxxxxxxxxxxxxxxxxxxxxxxxxxxxxxxxxxxxxxxxxxxxxxxxxxxxxxxxxxxxxxxxxxxxxxxxxxxxxxxxxxxxxxxxxxxxxxxxxxxxxxxxxxxxxxxxxxxxxxxxxxxxxxxxxxxxxxxxxxxxxxxxxxxxxxxxxxxxxxxxxxxxxxxxxxxxxxxxxxxxxxxxxxxxxxxxxxxxxxxxxxxxxxxxxxxxxxxxxxxxxxxxxxxxxxxxxxxxxxxxxxxxxxxxxxxxxxxxxxxxxxxxxxxxxxxxxxxxxxxxxxxxxxxxxxxxxxxxxxxxxxx';
SELECT k FROM t WHERE s = '\\\\\\\\\\\\\\\\\\\\\\\\\\\\\\\\\\\\\\\\\\\\\\\\\\\\\\\\\\\\\\\\\\\\\\\\\\\\\\\\\\\\\\\\\\\\\\\\\\\\\\\\\\\\\\\\\\\\\\\\\\\\\\\\\\\\\\\\\\\\\\\\\\\\\\\\\\\\\\\\\\\\\\\\\\\\\\\\\\\\\\\\\\\\\\\\\\\\\\\\\\\\\\\\\\\\\\\\\\\\\\\\\\\\\\\\\\\\\\\\\\\\\\\\\\\\\\\\\\\\\\\\\\\\\\\\\\\\\\\\\\\\\\\\\\\\\\\\\\\\\\\\\\\\\\\\\\\\\\\\\\\\\\\\\\\\\\\\\\\\\\\\\\\\\\\\\\\\\\\\\\\\\\\\\\\\\\\\\\\\\\\\\\\\\\\\\\\\\\\\\\\\\\\\\\\\\\\\\\\\\\\\\\\\\\\\\\\\\\\\\\\\\\\\\\\\\\\\\\\\\\\\\\\\\\\\\\\\\\\\\\\\\\\\\\\\\\\\\\\\\\\\\\\\\\\\\\\\\\\\\\\\\\\\\\\\\\\\\\\\\\\\\\\\\\\\\\\\\\\\\\\\\\\\\\\\\\\\\\\\\\\\\\\\\\\\\\\\\\\\\\\\\\\\\\\\\\\\\\\\\\\\\\\\\\\\\\\\\\\\\\\\\\\\\\\\\\\\\\\\\\\\\\\\\\\\\\\\\\\\\\\\\\\\\\\\\\\\\\\\\\\\\\\\\\\\\\\\\\\\\\\\\\\\\\\\\\\\\\\\\\\\\\\\\\\\\\\\\\\\\\\\\\\\\\\\\\\\\\\\\\\\\\\\\\\\\\\\\\\\\\\\\\\\\\\\\\\\\\\\\\\\\\\\\\\\\\\\\\\\\\\\\\\\\\\\\\\\\\\\\\\\\\\\\\\\\\\\\\\\\\\\\\\\\\\\\\\\\\\\\\\\\\\\\\\\\\\\\\\\\\\\\\\\\\\\\\\\\\\\\\\\\\\\\\\\\\\\\\\\\\\\\\\\\\\\\\\\\\\\\\\\\\\\\\\\\\\\\\\\\\\\\\\\\\\\\\\\\\\\\\\\\\\\\\\\\\\\\\\\\\\\\\\\\\\\\\\\\\\\\\\\\\\\\\\\\\\\\\\\\\\\\\\\\\\\\\\\\\\\\\\\\\\\\\\\\\\\\\\\\\\\\\\\\\\\\\\\\\\\\\\\\\\\\\\\\\\\\\\\\\\\\\\\\\\\\\\\\\\\\\\\\\\\\\\\\\\\\\\\\\\\\\\\\\\\\\\\\\\\\\\\\\\\\\\\\\\\\\\\\\\\\\\\\\\\\\\\\\\\\\\\\\\\\\\\\\\\\\\\\\\\\\\\\\\\\\\\\\\\\\\\\\\\\\\\\\\\\\\\\\\\\\\\\\\\\\\\\\\\\\\\\\\\\\\\\\\\\\\\\\\\\\\\\\\\\\\\\\\\\\\\\\\\\\\\\\\\\\\\\\\\\\\\\\\\\\\\\\\\\\\\\\\\\\\\\\\\\\\\\\\\\\\\\\\\\\\\\\\\\\\\\\\\\\\\\\\\\\\\\\\\\\\\\\\\\\\\\\\\\\\\\\\\\\\\\\\\\\\\\\\\\\\\\\\\\\\\\\\\\\\\\\\\\\\\\\\\\\\\\\\\\\\\\\\\\\\\\\\\\\\\\\\\\\\\\\\\\\\\\\\\\\\\\\\\\\\\\\\\\\\\\\\\\\\\\\\\\\\\\\\\\\\\\\\\\\\\\\\\\\\\\\\\\\\\\\\\\\\\\\\\\\\\\\\\\\\\\\\\\\\\\\\\\\\\\\\\\\\\\\\\\\\\\\\\\\\\\\\\\\\\\\\\\\\\\\\\\\\\\\\\\\\\\\\\\\\\\\\\\\\\\\\\\\\\\\\\\\\\\\\\\\\\\\\\\\\\\\\\\\\\\\\\\\\\\\\\\\\\\\\\\\\\\\\\\\\\\\\\\\\\\\\\\\\\\\\\\\\\\\\\\\\\\\\\\\\\\\\\\\\\\\\\\\\\\\\\\\\\\\\\\\\\\\\\\\\\\\\\\\\\\\\\\\\\\\\\\\\\\\\\\\\\\\\\\\\\\\\\\\\\\\\\\\\\\\\\\\\\\\\\\\\\\\\\\\\\\\\\\\\\\\\\\\\\\\\\\\\\\\\\\\\\\\\\\\\\\\\\\\\\\\\\\\\\\\\\\\\\\\\\\\\\\\\\\\\\\\\\\\\\\\\\\\\\\\\\\\\\\\\\\\\\\\\\\\\\\\\\\\\\\\\\\\\\\\\\\\\\\\\\\\\\\\\\\\\\\\\\\\\\\\\\\\\\\\\\\\\\\\\\\\\\\\\\\\\\\\\\\\\\\\\\\\\\\\\\\\\\\\\\\\\\\\\\\\\\\\\\\\\\\\\\\\\\\\\\\\\\\\\\\\\\\\\\\\\\\\\\\\\\\\\\\\\\\\\\\\\\\\\\\\\\\\\\\\\\\\\\\\\\\\\\\\\\\\\\\\\\\\\\\\\\\\\\\\\\\\\\\\\\\\\\\\\\\\\\\\\\\\\\\\\\\\\\\\\\\\\\\\\\\\\\\\\\\\\\\\\\\\\\\\\\\\\\\\\\\\\\\\\\\\\\\\\\\\\\\\\\\\\\\\\\\\\\\\\\\\\\';
SELECT k FROM t WHERE s = 'line
line
line
line
line
line
line
line
line
line
line
line
line
line
line
line
line
line
line
line
line
line
line
line
line
line
line
line
line
line
line
line
line
line
line
line
line
line
line
line
line
line
line
line
line
line
line
line
line
line
line
line
line
line
line
line
line
line
line
line
line
line
line
line
line
line
line
line
line
line
line
line
line
line
line
line
line
line
line
line
line
line
line
line
line
line
line
line
line
line
line
line
line
line
line
line
line
line
line
line
line
line
line
line
line
line
line
line
line
line
line
line
line
line
line
line
line
line
line
line
line
line
line
line
line
line
line
line
line
line
line
line
line
line
line
line
line
line
line
line
line
line
line
line
line
line
line
line
line
line
line
line
line
line
line
line
line
line
line
line
line
line
line
line
line
line
line
line
line
line
line
line
line
line
line
line
line
line
line
line
line
line
line
line
line
line
line
line
line
line
line
line
line
line
line
line
line
line
line
line
line
line
line
line
line
line
line
line
line
line
line
line
line
line
line
line
line
line
line
line
line
line
line
line
line
line
line
line
line
line
line
line
line
line
line
line
line
line
line
line
line
line
line
line
line
line
line
line
line
line
line
line
line
line
line
line
line
line
line
line
line
line
line
line
line
line
line
line
line
line
line
line
line
line
line
line
line
line
line
line
line
line
line
line
line
line
line
line
line
line
line
line
line
line
line
line
line
line
line
line
line
line
line
line
line
line
line
line
line
line
line
line
line
line
line
line
line
line
line
line
line
line
line
line
line
line
line
line
line
line
line
line
line
line
line
line
line
line
line
line
line
line
line
line
line
line
line
line
line
line
line
line
line
line
line
line
line
line
line
line
line
line
line
line
line
line
line
line
line
line
line
line
line
line
line
line
line
line
line
line
line
line
line
line
line
line
line
line
line
line
line
line
line
line
line
line
line
line
line
line
line
line
line
line
line
line
line
line
line
line
line
line
line
line
line
line
line
line
line
line
line
line
line
line
line
line
line
line
line
line
line
line
line
line
line
line
line
line
line
line
line
line
line
line
line
line
line
line
line
line
line
line
line
line
line
line
line
line
line
line
line
line
line
line
line
line
line
line
line
line
line
line
line
line
line
line
line
line
line
line
line
line
line
line
line
line
line
line
line
line
line
line
line
line
line
line
line
line
line
line
line
line
line
line
line
line
line
line
line
line
line
line
line
line
line
line
line
line
line
line
line
line
line
line
line
line
line
line
line
line
line
line
line
line
line
line
line
line
line
line
line
line
line
line
line
line
line
line
line
line
line
line
line
line
line
line
line
line
line
line
line
line
line
line
line
line
line
line
line
line
line
line
line
line
line
line
line
line
line
line
line
line
line
line
line
line
line
line
line
line
line
line
line
line
line
line
line
line
line
line
line
line
line
line
line
line
line
line
line
line
line
line
line
line
line
line
line
line
line
line
line
line
line
line
line
line
line
line
line
line
line
line
line
line
line
line
line
line
line
line
line
line
line
line
line
line
line
line
line
line
line
line
line
line
line
line
line
line
line
line
line
line
line
line
line
line
line
line
line
line
line
line
line
line
line
line
line
line
line
line
line
line
line
line
line
line
line
line
line
line
line
line
line
line
line
line
line
line
line
line
line
line
line
line
line
line
line
line
line
line
line
line
line
line
line
line
line
line
line
line
line
line
line
line
line
line
line
line
line
line
line
line
line
line
line
line
line
line
line
line
line
line
line
line
line
line
line
line
line
line
line
line
line
line
line
line
line
line
line
line
line
line
line
line
line
line
line
line
line
line
line
line
line
line
line
line
line
line
line
line
line
line
line
line
line
line
line
line
line
line
line
line
line
line
line
line
line
line
line
line
line
line
line
line
line
line
line
line
line
line
line
line
line
line
line
line
line
line
line
line
line
line
line
line
line
line
line
line
line
line
line
line
line
line
line
line
line
line
line
line
line
line
line
line
line
line
line
line
line
line
line
line
line
line
line
line
line
line
line
line
line
line
line
line
line
line
line
line
line
line
line
line
line
line
line
line
line
line
line
line
line
line
line
line
line
line
line
line
line
line
line
line
line
line
line
line
line
line
line
line
line
line
line
line
line
line
line
line
line
line
line
line
line
line
line
line
line
line
line
line
line
line
line
line
line
line
line
line
line
line
line
line
line
line
line
line
line
line
line
line
line
line
line
line
line
line
line
line
line
line
line
line
line
line
line
line
line
line
line
line
line
line
line
line
line
line
line
line
line
line
line
line
line
line
line
line
line
line
line
line
line
line
line
line
line
line
line
line
line
line
line
line
line
line
line
line
line
line
line
line
';
SELECT k FROM t WHERE s = '""""""""""""""""""""""""""""""""""""""""""""""""""""""""""""""""""""""""""""""""""""""""""""""""""""""""""""""""""""""""""""""""""""""""""""""""""""""""""""""""""""""""""""""""""""""""""""""""""""""""""""""""""""""""""""""""""""""""""""""""""""""""""""""""""""""""""""""""""""""""""""""""""""""""""""""""""""""""""""""""""""""""""""""""""""""""""""""""""""""""""""""""""""""""""""""""""""""""""""""""""""""""""""""""""""""""""""""""""""""""""""""""""""""""""""""""""""""""""""""""""""""""""""""""""""""""""""""""""""""""""""""""""""""""""""""""""""""""""""""""""""""""""""""""""""""""""""""""""""""""""""""""""""""""""""""""""""""""""""""""""""""""""""""""""""""""""""""""""""""""""""""""""""""""""""""""""""""""""""""""""""""""""""""""""""""""""""""""""""""""""""""""""""""""""""""""""""""""""""""""""""""""""""""""""""""""""""""""""""""""""""""""""""""""""""""""""""""""""""""""""""""""""""""""""""""""""""""""""""""""""""""""""""""""""""""""""""""""""""""""""""""""""""""""""""""""""""""""""""""""""""""""""""""""""""""""""""""""""""""""""""""""""""""""""""""""""""""""""""""""""""""""""""""""""""""""""""""""""""""""""""""""""""""""""""""""""""""""""""""""""""""""""""""""""""""""""""""""""""""""""""""""""""""""""""""""""""""""""""""""""""""""""""""""""""""""""""""""""""""""""""""""""""""""""""""""""""""""""""""""""""""""""""""""""""""""""""""""""""""""""""""""""""""""""""""""""""""""""""""""""""""""""""""""""""""""""""""""""""""""""""""""""""""""""""""""""""""""""""""""""""""""""""""""""""""""""""""""""""""""""""""""""""""""""""""""""""""""""""""""""""""""""""""""""""""""""""""""""""""""""""""""""""""""""""""""""""""""""""""""""""""""""""""""""""""""""""""""""""""""""""""""""""""""""""""""""""""""""""""""""""""""""""""""""""""""""""""""""""""""""""""""""""""""""""""""""""""""""""""""""""""""""""""""""""""""""""""""""""""""""""""""""""""""""""""""""""""""""""""""""""""""""""""""""""""""""""""""""""""""""""""""""""""""""""""""""""""""""""""""""""""""""""""""""""""""""""""""""""""""""""""""""""""""""""""""""""""""""""""""""""""""""""""""""""""""""""""""""""""""""""""""""""""""""""""""""""""""""""""""""""""""""""""""""""""""""""""""""""""""""""""""""""""""""""""""""""""""""""""""""""""""""""""""""""""""""""""""""""""""""""""""""""""""""""""""""""""""""""""""""""""""""""""""""""""""""""""""""""""""""""""""""""""""""""""""""""""""""""""""""""""""""""""""""""""""""""""""""""""""""""""""""""""""""""""""""""""""""""""""""""""""""""""""""""""""""""""""""""""""""""""""""""""""""""';
COPY t (k) FROM STDIN;
      2001
\.
COPY t (k) FROM STDIN;
2002
\.
COPY t (k) FROM STDIN;
 2003
\.
COPY t (k) FROM STDIN;
  2004
\.
COPY t (k) FROM STDIN;
   2005
\.
COPY t (k) FROM STDIN;
    2006
\.
COPY t (k) FROM STDIN;
     2007
\.
COPY t (k) FROM STDIN;
      2008
\.
COPY t (k) FROM STDIN;
2009
\.
COPY t (k) FROM STDIN;
 2010
\.
COPY t (k) FROM STDIN;
  2011
\.
COPY t (k) FROM STDIN;
   2012
\.
COPY t (k) FROM STDIN;
    2013
\.
COPY t (k) FROM STDIN;
     2014
\.
COPY t (k) FROM STDIN;
      2015
\.
COPY t (k) FROM STDIN;
2016
\.
COPY t (k) FROM STDIN;
 2017
\.
COPY t (k) FROM STDIN;
  2018
\.
COPY t (k) FROM STDIN;
   2019
\.
COPY t (k) FROM STDIN;
    2020
\.
COPY t (k) FROM STDIN;
     2021
\.
COPY t (k) FROM STDIN;
      2022
\.
COPY t (k) FROM STDIN;
2023
\.
COPY t (k) FROM STDIN;
 2024
\.
COPY t (k) FROM STDIN;
  2025
\.
COPY t (k) FROM STDIN;
   2026
\.
COPY t (k) FROM STDIN;
    2027
\.
COPY t (k) FROM STDIN;
     2028
\.
COPY t (k) FROM STDIN;
      2029
\.
COPY t (k) FROM STDIN;
2030
\.
COPY t (k) FROM STDIN;
 2031
\.
COPY t (k) FROM STDIN;
  2032
\.
COPY t (k) FROM STDIN;
   2033
\.
COPY t (k) FROM STDIN;
    2034
\.
COPY t (k) FROM STDIN;
     2035
\.
COPY t (k) FROM STDIN;
      2036
\.
COPY t (k) FROM STDIN;
2037
\.
COPY t (k) FROM STDIN;
 2038
\.
COPY t (k) FROM STDIN;
  2039
\.
COPY t (k) FROM STDIN;
   2040
\.
COPY t (k) FROM STDIN;
    2041
\.
COPY t (k) FROM STDIN;
     2042
\.
COPY t (k) FROM STDIN;
      2043
\.
COPY t (k) FROM STDIN;
2044
\.
COPY t (k) FROM STDIN;
 2045
\.
COPY t (k) FROM STDIN;
  2046
\.
COPY t (k) FROM STDIN;
   2047
\.
COPY t (k) FROM STDIN;
    2048
\.
COPY t (k) FROM STDIN;
     2049
\.
COPY t (k) FROM STDIN;
      2050
\.
COPY t (k) FROM STDIN;
2051
\.
COPY t (k) FROM STDIN;
 2052
\.
COPY t (k) FROM STDIN;
  2053
\.
COPY t (k) FROM STDIN;
   2054
\.
COPY t (k) FROM STDIN;
    2055
\.
COPY t (k) FROM STDIN;
     2056
\.
COPY t (k) FROM STDIN;
      2057
\.
COPY t (k) FROM STDIN;
2058
\.
COPY t (k) FROM STDIN;
 2059
\.
COPY t (k) FROM STDIN;
  2060
\.
COPY t (k) FROM STDIN;
   2061
\.
COPY t (k) FROM STDIN;
    2062
\.
COPY t (k) FROM STDIN;
     2063
\.
COPY t (k) FROM STDIN;
      2064
\.
COPY t (k) FROM STDIN;
2065
\.
COPY t (k) FROM STDIN;
 2066
\.
COPY t (k) FROM STDIN;
  2067
\.
COPY t (k) FROM STDIN;
   2068
\.
COPY t (k) FROM STDIN;
    2069
\.
COPY t (k) FROM STDIN;
     2070
\.
COPY t (k) FROM STDIN;
      2071
\.
COPY t (k) FROM STDIN;
2072
\.
COPY t (k) FROM STDIN;
 2073
\.
COPY t (k) FROM STDIN;
  2074
\.
COPY t (k) FROM STDIN;
   2075
\.
COPY t (k) FROM STDIN;
    2076
\.
COPY t (k) FROM STDIN;
     2077
\.
COPY t (k) FROM STDIN;
      2078
\.
COPY t (k) FROM STDIN;
2079
\.
COPY t (k) FROM STDIN;
 2080
\.
COPY t (k) FROM STDIN;
  2081
\.
COPY t (k) FROM STDIN;
   2082
\.
COPY t (k) FROM STDIN;
    2083
\.
COPY t (k) FROM STDIN;
     2084
\.
COPY t (k) FROM STDIN;
      2085
\.
COPY t (k) FROM STDIN;
2086
\.
COPY t (k) FROM STDIN;
 2087
\.
COPY t (k) FROM STDIN;
  2088
\.
COPY t (k) FROM STDIN;
   2089
\.
COPY t (k) FROM STDIN;
    2090
\.
COPY t (k) FROM STDIN;
     2091
\.
COPY t (k) FROM STDIN;
      2092
\.
COPY t (k) FROM STDIN;
2093
\.
COPY t (k) FROM STDIN;
 2094
\.
COPY t (k) FROM STDIN;
  2095
\.
COPY t (k) FROM STDIN;
   2096
\.
COPY t (k) FROM STDIN;
    2097
\.
COPY t (k) FROM STDIN;
     2098
\.
COPY t (k) FROM STDIN;
      2099
\.
COPY t (k) FROM STDIN;
2100
\.
COPY t (k) FROM STDIN;
 2101
\.
COPY t (k) FROM STDIN;
  2102
\.
COPY t (k) FROM STDIN;
   2103
\.
COPY t (k) FROM STDIN;
    2104
\.
COPY t (k) FROM STDIN;
     2105
\.
COPY t (k) FROM STDIN;
      2106
\.
COPY t (k) FROM STDIN;
2107
\.
COPY t (k) FROM STDIN;
 2108
\.
COPY t (k) FROM STDIN;
  2109
\.
COPY t (k) FROM STDIN;
   2110
\.
COPY t (k) FROM STDIN;
    2111
\.
COPY t (k) FROM STDIN;
     2112
\.
COPY t (k) FROM STDIN;
      2113
\.
COPY t (k) FROM STDIN;
2114
\.
COPY t (k) FROM STDIN;
 2115
\.
COPY t (k) FROM STDIN;
  2116
\.
COPY t (k) FROM STDIN;
   2117
\.
COPY t (k) FROM STDIN;
    2118
\.
COPY t (k) FROM STDIN;
     2119
\.
COPY t (k) FROM STDIN;
      2120
\.
COPY t (k) FROM STDIN;
2121
\.
COPY t (k) FROM STDIN;
 2122
\.
COPY t (k) FROM STDIN;
  2123
\.
COPY t (k) FROM STDIN;
   2124
\.
COPY t (k) FROM STDIN;
    2125
\.
COPY t (k) FROM STDIN;
     2126
\.
COPY t (k) FROM STDIN;
      2127
\.
COPY t (k) FROM STDIN;
2128
\.
COPY t (k) FROM STDIN;
 2129
\.
COPY t (k) FROM STDIN;
  2130
\.
COPY t (k) FROM STDIN;
   2131
\.
COPY t (k) FROM STDIN;
    2132
\.
COPY t (k) FROM STDIN;
     2133
\.
COPY t (k) FROM STDIN;
      2134
\.
COPY t (k) FROM STDIN;
2135
\.
COPY t (k) FROM STDIN;
 2136
\.
COPY t (k) FROM STDIN;
  2137
\.
COPY t (k) FROM STDIN;
   2138
\.
COPY t (k) FROM STDIN;
    2139
\.
COPY t (k) FROM STDIN;
     2140
\.
COPY t (k) FROM STDIN;
      2141
\.
COPY t (k) FROM STDIN;
2142
\.
COPY t (k) FROM STDIN;
 2143
\.
COPY t (k) FROM STDIN;
  2144
\.
COPY t (k) FROM STDIN;
   2145
\.
COPY t (k) FROM STDIN;
    2146
\.
COPY t (k) FROM STDIN;
     2147
\.
COPY t (k) FROM STDIN;
      2148
\.
COPY t (k) FROM STDIN;
2149
\.
COPY t (k) FROM STDIN;
 2150
\.
COPY t (k) FROM STDIN;
  2151
\.
COPY t (k) FROM STDIN;
   2152
\.
COPY t (k) FROM STDIN;
    2153
\.
COPY t (k) FROM STDIN;
     2154
\.
COPY t (k) FROM STDIN;
      2155
\.
COPY t (k) FROM STDIN;
2156
\.
COPY t (k) FROM STDIN;
 2157
\.
COPY t (k) FROM STDIN;
  2158
\.
COPY t (k) FROM STDIN;
   2159
\.
COPY t (k) FROM STDIN;
    2160
\.
COPY t (k) FROM STDIN;
     2161
\.
COPY t (k) FROM STDIN;
      2162
\.
COPY t (k) FROM STDIN;
2163
\.
COPY t (k) FROM STDIN;
 2164
\.
COPY t (k) FROM STDIN;
  2165
\.
COPY t (k) FROM STDIN;
   2166
\.
COPY t (k) FROM STDIN;
    2167
\.
COPY t (k) FROM STDIN;
     2168
\.
COPY t (k) FROM STDIN;
      2169
\.
COPY t (k) FROM STDIN;
2170
\.
COPY t (k) FROM STDIN;
 2171
\.
COPY t (k) FROM STDIN;
  2172
\.
COPY t (k) FROM STDIN;
   2173
\.
COPY t (k) FROM STDIN;
    2174
\.
COPY t (k) FROM STDIN;
     2175
\.
COPY t (k) FROM STDIN;
      2176
\.
COPY t (k) FROM STDIN;
2177
\.
COPY t (k) FROM STDIN;
 2178
\.
COPY t (k) FROM STDIN;
  2179
\.
COPY t (k) FROM STDIN;
   2180
\.
COPY t (k) FROM STDIN;
    2181
\.
COPY t (k) FROM STDIN;
     2182
\.
COPY t (k) FROM STDIN;
      2183
\.
COPY t (k) FROM STDIN;
2184
\.
COPY t (k) FROM STDIN;
 2185
\.
COPY t (k) FROM STDIN;
  2186
\.
COPY t (k) FROM STDIN;
   2187
\.
COPY t (k) FROM STDIN;
    2188
\.
COPY t (k) FROM STDIN;
     2189
\.
COPY t (k) FROM STDIN;
      2190
\.
COPY t (k) FROM STDIN;
2191
\.
COPY t (k) FROM STDIN;
 2192
\.
COPY t (k) FROM STDIN;
  2193
\.
COPY t (k) FROM STDIN;
   2194
\.
COPY t (k) FROM STDIN;
    2195
\.
COPY t (k) FROM STDIN;
     2196
\.
COPY t (k) FROM STDIN;
      2197
\.
COPY t (k) FROM STDIN;
2198
\.
COPY t (k) FROM STDIN;
 2199
\.
SELECT count(*), sum(k) FROM t WHERE k > 2000;
