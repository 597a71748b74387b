(module
  (type (;0;) (func (param i32) (result i32)))
  (type (;1;) (func (result i64)))
  (func $run (type 0) (param i32) (result i32)
    (local i32 i32)
    i32.const 1
    local.set 1
    block  ;; label = @1
      local.get 0
      i32.const 1
      i32.ge_s
      br_if 0 (;@1;)
      i32.const 6
      return
    end
    i32.const 7
    local.set 2
    loop  ;; label = @1
      block  ;; label = @2
        block  ;; label = @3
          block  ;; label = @4
            block  ;; label = @5
              block  ;; label = @6
                block  ;; label = @7
                  block  ;; label = @8
                    block  ;; label = @9
                      block  ;; label = @10
                        block  ;; label = @11
                          block  ;; label = @12
                            block  ;; label = @13
                              block  ;; label = @14
                                block  ;; label = @15
                                  block  ;; label = @16
                                    block  ;; label = @17
                                      block  ;; label = @18
                                        block  ;; label = @19
                                          block  ;; label = @20
                                            block  ;; label = @21
                                              block  ;; label = @22
                                                block  ;; label = @23
                                                  block  ;; label = @24
                                                    block  ;; label = @25
                                                      block  ;; label = @26
                                                        block  ;; label = @27
                                                          block  ;; label = @28
                                                            block  ;; label = @29
                                                              block  ;; label = @30
                                                                block  ;; label = @31
                                                                  block  ;; label = @32
                                                                    block  ;; label = @33
                                                                      block  ;; label = @34
                                                                        block  ;; label = @35
                                                                          block  ;; label = @36
                                                                            block  ;; label = @37
                                                                              block  ;; label = @38
                                                                                block  ;; label = @39
                                                                                  block  ;; label = @40
                                                                                    block  ;; label = @41
                                                                                      block  ;; label = @42
                                                                                        block  ;; label = @43
                                                                                          block  ;; label = @44
                                                                                            block  ;; label = @45
                                                                                              block  ;; label = @46
                                                                                                block  ;; label = @47
                                                                                                  block  ;; label = @48
                                                                                                    block  ;; label = @49
                                                                                                      block  ;; label = @50
                                                                                                        block  ;; label = @51
                                                                                                          block  ;; label = @52
                                                                                                            block  ;; label = @53
                                                                                                              local.get 2
                                                                                                              i32.const 50
                                                                                                              i32.rem_u
                                                                                                              br_table 0 (;@53;) 1 (;@52;) 2 (;@51;) 3 (;@50;) 4 (;@49;) 5 (;@48;) 6 (;@47;) 7 (;@46;) 8 (;@45;) 9 (;@44;) 10 (;@43;) 11 (;@42;) 12 (;@41;) 13 (;@40;) 14 (;@39;) 15 (;@38;) 16 (;@37;) 17 (;@36;) 18 (;@35;) 19 (;@34;) 20 (;@33;) 21 (;@32;) 22 (;@31;) 23 (;@30;) 24 (;@29;) 25 (;@28;) 26 (;@27;) 27 (;@26;) 28 (;@25;) 29 (;@24;) 30 (;@23;) 31 (;@22;) 32 (;@21;) 33 (;@20;) 34 (;@19;) 35 (;@18;) 36 (;@17;) 37 (;@16;) 38 (;@15;) 39 (;@14;) 40 (;@13;) 41 (;@12;) 42 (;@11;) 43 (;@10;) 44 (;@9;) 45 (;@8;) 46 (;@7;) 47 (;@6;) 48 (;@5;) 49 (;@4;) 51 (;@2;)
                                                                                                            end
                                                                                                            local.get 1
                                                                                                            i32.const 11
                                                                                                            i32.mul
                                                                                                            local.get 2
                                                                                                            i32.add
                                                                                                            local.set 1
                                                                                                            br 50 (;@2;)
                                                                                                          end
                                                                                                          local.get 2
                                                                                                          i32.const 2
                                                                                                          i32.shl
                                                                                                          local.get 1
                                                                                                          i32.xor
                                                                                                          local.set 1
                                                                                                          br 49 (;@2;)
                                                                                                        end
                                                                                                        local.get 2
                                                                                                        local.get 1
                                                                                                        i32.const 3
                                                                                                        i32.shr_u
                                                                                                        i32.add
                                                                                                        local.set 2
                                                                                                        local.get 1
                                                                                                        i32.const 1
                                                                                                        i32.add
                                                                                                        local.set 1
                                                                                                        br 48 (;@2;)
                                                                                                      end
                                                                                                      local.get 2
                                                                                                      i32.const -122
                                                                                                      i32.mul
                                                                                                      local.get 1
                                                                                                      i32.const 3
                                                                                                      i32.shr_u
                                                                                                      i32.add
                                                                                                      local.set 1
                                                                                                      br 47 (;@2;)
                                                                                                    end
                                                                                                    local.get 2
                                                                                                    i32.const 159
                                                                                                    i32.or
                                                                                                    local.get 1
                                                                                                    i32.add
                                                                                                    local.set 1
                                                                                                    br 45 (;@3;)
                                                                                                  end
                                                                                                  local.get 1
                                                                                                  i32.const 196
                                                                                                  i32.mul
                                                                                                  local.get 2
                                                                                                  i32.add
                                                                                                  local.set 1
                                                                                                  br 45 (;@2;)
                                                                                                end
                                                                                                local.get 2
                                                                                                i32.const 7
                                                                                                i32.shl
                                                                                                local.get 1
                                                                                                i32.xor
                                                                                                local.set 1
                                                                                                br 44 (;@2;)
                                                                                              end
                                                                                              local.get 2
                                                                                              local.get 1
                                                                                              i32.const 8
                                                                                              i32.shr_u
                                                                                              i32.add
                                                                                              local.set 2
                                                                                              local.get 1
                                                                                              i32.const 1
                                                                                              i32.add
                                                                                              local.set 1
                                                                                              br 43 (;@2;)
                                                                                            end
                                                                                            local.get 2
                                                                                            i32.const -307
                                                                                            i32.mul
                                                                                            local.get 1
                                                                                            i32.const 3
                                                                                            i32.shr_u
                                                                                            i32.add
                                                                                            local.set 1
                                                                                            br 42 (;@2;)
                                                                                          end
                                                                                          local.get 2
                                                                                          i32.const 344
                                                                                          i32.or
                                                                                          local.get 1
                                                                                          i32.add
                                                                                          local.set 1
                                                                                          br 40 (;@3;)
                                                                                        end
                                                                                        local.get 1
                                                                                        i32.const 381
                                                                                        i32.mul
                                                                                        local.get 2
                                                                                        i32.add
                                                                                        local.set 1
                                                                                        br 40 (;@2;)
                                                                                      end
                                                                                      local.get 2
                                                                                      i32.const 12
                                                                                      i32.shl
                                                                                      local.get 1
                                                                                      i32.xor
                                                                                      local.set 1
                                                                                      br 39 (;@2;)
                                                                                    end
                                                                                    local.get 2
                                                                                    local.get 1
                                                                                    i32.const 13
                                                                                    i32.shr_u
                                                                                    i32.add
                                                                                    local.set 2
                                                                                    local.get 1
                                                                                    i32.const 1
                                                                                    i32.add
                                                                                    local.set 1
                                                                                    br 38 (;@2;)
                                                                                  end
                                                                                  local.get 2
                                                                                  i32.const -492
                                                                                  i32.mul
                                                                                  local.get 1
                                                                                  i32.const 3
                                                                                  i32.shr_u
                                                                                  i32.add
                                                                                  local.set 1
                                                                                  br 37 (;@2;)
                                                                                end
                                                                                local.get 2
                                                                                i32.const 529
                                                                                i32.or
                                                                                local.get 1
                                                                                i32.add
                                                                                local.set 1
                                                                                br 35 (;@3;)
                                                                              end
                                                                              local.get 1
                                                                              i32.const 566
                                                                              i32.mul
                                                                              local.get 2
                                                                              i32.add
                                                                              local.set 1
                                                                              br 35 (;@2;)
                                                                            end
                                                                            local.get 2
                                                                            i32.const 17
                                                                            i32.shl
                                                                            local.get 1
                                                                            i32.xor
                                                                            local.set 1
                                                                            br 34 (;@2;)
                                                                          end
                                                                          local.get 2
                                                                          local.get 1
                                                                          i32.const 18
                                                                          i32.shr_u
                                                                          i32.add
                                                                          local.set 2
                                                                          local.get 1
                                                                          i32.const 1
                                                                          i32.add
                                                                          local.set 1
                                                                          br 33 (;@2;)
                                                                        end
                                                                        local.get 2
                                                                        i32.const -677
                                                                        i32.mul
                                                                        local.get 1
                                                                        i32.const 3
                                                                        i32.shr_u
                                                                        i32.add
                                                                        local.set 1
                                                                        br 32 (;@2;)
                                                                      end
                                                                      local.get 2
                                                                      i32.const 714
                                                                      i32.or
                                                                      local.get 1
                                                                      i32.add
                                                                      local.set 1
                                                                      br 30 (;@3;)
                                                                    end
                                                                    local.get 1
                                                                    i32.const 751
                                                                    i32.mul
                                                                    local.get 2
                                                                    i32.add
                                                                    local.set 1
                                                                    br 30 (;@2;)
                                                                  end
                                                                  local.get 2
                                                                  i32.const 22
                                                                  i32.shl
                                                                  local.get 1
                                                                  i32.xor
                                                                  local.set 1
                                                                  br 29 (;@2;)
                                                                end
                                                                local.get 2
                                                                local.get 1
                                                                i32.const 23
                                                                i32.shr_u
                                                                i32.add
                                                                local.set 2
                                                                local.get 1
                                                                i32.const 1
                                                                i32.add
                                                                local.set 1
                                                                br 28 (;@2;)
                                                              end
                                                              local.get 2
                                                              i32.const -862
                                                              i32.mul
                                                              local.get 1
                                                              i32.const 3
                                                              i32.shr_u
                                                              i32.add
                                                              local.set 1
                                                              br 27 (;@2;)
                                                            end
                                                            local.get 2
                                                            i32.const 899
                                                            i32.or
                                                            local.get 1
                                                            i32.add
                                                            local.set 1
                                                            br 25 (;@3;)
                                                          end
                                                          local.get 1
                                                          i32.const 936
                                                          i32.mul
                                                          local.get 2
                                                          i32.add
                                                          local.set 1
                                                          br 25 (;@2;)
                                                        end
                                                        local.get 2
                                                        i32.const 27
                                                        i32.shl
                                                        local.get 1
                                                        i32.xor
                                                        local.set 1
                                                        br 24 (;@2;)
                                                      end
                                                      local.get 2
                                                      local.get 1
                                                      i32.const 28
                                                      i32.shr_u
                                                      i32.add
                                                      local.set 2
                                                      local.get 1
                                                      i32.const 1
                                                      i32.add
                                                      local.set 1
                                                      br 23 (;@2;)
                                                    end
                                                    local.get 2
                                                    i32.const -1047
                                                    i32.mul
                                                    local.get 1
                                                    i32.const 3
                                                    i32.shr_u
                                                    i32.add
                                                    local.set 1
                                                    br 22 (;@2;)
                                                  end
                                                  local.get 2
                                                  i32.const 1084
                                                  i32.or
                                                  local.get 1
                                                  i32.add
                                                  local.set 1
                                                  br 20 (;@3;)
                                                end
                                                local.get 1
                                                i32.const 1121
                                                i32.mul
                                                local.get 2
                                                i32.add
                                                local.set 1
                                                br 20 (;@2;)
                                              end
                                              local.get 2
                                              i32.const 2
                                              i32.shl
                                              local.get 1
                                              i32.xor
                                              local.set 1
                                              br 19 (;@2;)
                                            end
                                            local.get 2
                                            local.get 1
                                            i32.const 3
                                            i32.shr_u
                                            i32.add
                                            local.set 2
                                            local.get 1
                                            i32.const 1
                                            i32.add
                                            local.set 1
                                            br 18 (;@2;)
                                          end
                                          local.get 2
                                          i32.const -1232
                                          i32.mul
                                          local.get 1
                                          i32.const 3
                                          i32.shr_u
                                          i32.add
                                          local.set 1
                                          br 17 (;@2;)
                                        end
                                        local.get 2
                                        i32.const 1269
                                        i32.or
                                        local.get 1
                                        i32.add
                                        local.set 1
                                        br 15 (;@3;)
                                      end
                                      local.get 1
                                      i32.const 1306
                                      i32.mul
                                      local.get 2
                                      i32.add
                                      local.set 1
                                      br 15 (;@2;)
                                    end
                                    local.get 2
                                    i32.const 7
                                    i32.shl
                                    local.get 1
                                    i32.xor
                                    local.set 1
                                    br 14 (;@2;)
                                  end
                                  local.get 2
                                  local.get 1
                                  i32.const 8
                                  i32.shr_u
                                  i32.add
                                  local.set 2
                                  local.get 1
                                  i32.const 1
                                  i32.add
                                  local.set 1
                                  br 13 (;@2;)
                                end
                                local.get 2
                                i32.const -1417
                                i32.mul
                                local.get 1
                                i32.const 3
                                i32.shr_u
                                i32.add
                                local.set 1
                                br 12 (;@2;)
                              end
                              local.get 2
                              i32.const 1454
                              i32.or
                              local.get 1
                              i32.add
                              local.set 1
                              br 10 (;@3;)
                            end
                            local.get 1
                            i32.const 1491
                            i32.mul
                            local.get 2
                            i32.add
                            local.set 1
                            br 10 (;@2;)
                          end
                          local.get 2
                          i32.const 12
                          i32.shl
                          local.get 1
                          i32.xor
                          local.set 1
                          br 9 (;@2;)
                        end
                        local.get 2
                        local.get 1
                        i32.const 13
                        i32.shr_u
                        i32.add
                        local.set 2
                        local.get 1
                        i32.const 1
                        i32.add
                        local.set 1
                        br 8 (;@2;)
                      end
                      local.get 2
                      i32.const -1602
                      i32.mul
                      local.get 1
                      i32.const 3
                      i32.shr_u
                      i32.add
                      local.set 1
                      br 7 (;@2;)
                    end
                    local.get 2
                    i32.const 1639
                    i32.or
                    local.get 1
                    i32.add
                    local.set 1
                    br 5 (;@3;)
                  end
                  local.get 1
                  i32.const 1676
                  i32.mul
                  local.get 2
                  i32.add
                  local.set 1
                  br 5 (;@2;)
                end
                local.get 2
                i32.const 17
                i32.shl
                local.get 1
                i32.xor
                local.set 1
                br 4 (;@2;)
              end
              local.get 2
              local.get 1
              i32.const 18
              i32.shr_u
              i32.add
              local.set 2
              local.get 1
              i32.const 1
              i32.add
              local.set 1
              br 3 (;@2;)
            end
            local.get 2
            i32.const -1787
            i32.mul
            local.get 1
            i32.const 3
            i32.shr_u
            i32.add
            local.set 1
            br 2 (;@2;)
          end
          local.get 2
          i32.const 1824
          i32.or
          local.get 1
          i32.add
          local.set 1
        end
        local.get 1
        local.get 2
        i32.xor
        local.set 2
      end
      local.get 1
      local.get 2
      i32.const 1664525
      i32.mul
      i32.add
      i32.const 1013904223
      i32.add
      local.set 2
      local.get 0
      i32.const -1
      i32.add
      local.tee 0
      br_if 0 (;@1;)
    end
    local.get 2
    local.get 1
    i32.xor)
  (func $w0 (type 1) (result i64)
    (local i64 i32)
    i64.const 0
    local.set 0
    i32.const 384
    local.set 1
    loop  ;; label = @1
      local.get 0
      i64.const 31
      i64.mul
      i32.const 0
      i32.load offset=1024
      call $run
      i64.extend_i32_s
      i64.add
      local.set 0
      local.get 1
      i32.const -1
      i32.add
      local.tee 1
      br_if 0 (;@1;)
    end
    local.get 0)
  (memory (;0;) 2)
  (global $__stack_pointer (mut i32) (i32.const 66576))
  (export "memory" (memory 0))
  (export "run" (func $w0))
  (data $.data (i32.const 1024) "\d0\07\00\00"))
