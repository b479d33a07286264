module Shapes (area) where

area w h = scaled where
  scaled = w * h
